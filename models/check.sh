#!/usr/bin/env bash
# Checks the models of the bell, and prints a line for each: `ok` where it does as expected.
#
#     check.sh [WORD]      all of them, or those whose name has the word
#
# It needs spin and gcc, up to 3.5 GB in all and some minutes of two processors. A check that is expected
# to fail is of a wrong bell: the property that it breaks is named, and has to be the one that fails.
# The models are read from this folder, and what is made of them is kept in a folder of /tmp alone.
# The status is 0 where all did as expected.
cd "$(dirname "$0")" || exit 1
word=${1:-}
models=$PWD
build=$(mktemp -d) || exit 1
trap 'rm -rf "$build"' EXIT

# one NAME EXPECTED DEFINITIONS...: prints its line; EXPECTED is `holds` or the property that fails.
one() {
    local name=$1 expected=$2 flags=-DSAFETY words= depth=3000 start=$SECONDS found
    shift 2
    [[ " $* " == *" -DENDS "* ]] && flags=-DNFAIR=3 words="-a -f"
    # A search that is to fail goes less deep, which finds the failure sooner.
    [[ $expected == holds ]] && depth=1000000
    mkdir "$build/$name" && cd "$build/$name" && cp "$models"/*.pml . || return 1
    spin -a "$@" bell.pml > log 2>&1 \
        && gcc -O1 -w -DMEMLIM=2600 -DCOLLAPSE $flags -o pan pan.c >> log 2>&1 \
        && nice -n 5 ./pan -m$depth $words >> log 2>&1
    found=fault
    if grep -q 'errors: 0$' log && ! grep -qE 'not completed|max search depth' log; then
        found=holds
    elif grep -q 'pan:1: invalid end state' log; then
        found=asleep
    elif grep -q 'pan:1: assertion violated' log; then
        # The line of the assertion that failed has the property's name as its comment.
        found=$(spin -t "$@" bell.pml 2>&1 | sed -n 's/^spin: bell.pml:\([0-9]*\), Error.*/\1/p')
        found=$(sed -n "${found:-1}s,.*/\* \([a-z]*\) \*/.*,\1,p" bell.pml)
    elif grep -q 'pan:1: acceptance cycle' log; then
        found=ends
    fi
    local states
    states=$(sed -n 's/^ *\([0-9.e+]*\) states, stored.*/\1/p' log)
    local verdict=ok
    [[ $found == "$expected" ]] || verdict=UNEXPECTED
    echo "$verdict: $name: $found${states:+, $states states}, $((SECONDS - start)) s [$*]"
    rm -rf "${build:?}/$name"
    [[ $verdict == ok ]]
}

# The checks run two at a time, the longest first.
faults=0
jobs_now=0
check() {
    [[ $1 == *$word* ]] || return
    if ((jobs_now == 2)); then
        wait -n || faults=$((faults + 1))
        jobs_now=$((jobs_now - 1))
    fi
    one "$@" &
    jobs_now=$((jobs_now + 1))
}

# A check of three workers reads tens of millions of states: it runs only where its name is asked for.
large() {
    [[ -n $word ]] && check "$@"
}

two="-DK=2 -DC=2"
three="-DK=3 -DC=3 -DCOARSE -DAT_ONCE"
pair="-DK=2 -DC=3 -DCOARSE -DPAIR -DENDS -DSTART=0"
sleeper="$three -DEVENTS=2 -DSTART=2 -DIN_TURN=0 -DPROMPT -DNO_CAUSE"
helper="$three -DOWNERS=2 -DPINNED=2 -DEVENTS=2 -DSTART=0 -DIN_TURN=1 -DPROMPT -DFROM_SLEEP=1 -DLONG -DNO_CAUSE"

# Nobody from outside, and all begin at once: nobody gives up.
large order-three holds $sleeper
check order-two holds $two -DEVENTS=3 -DNO_CAUSE
check worth holds $two -DC=3 -DWORTH=2 -DEVENTS=3 -DCOARSE -DNO_CAUSE
check no-victims holds $two -DALONE -DEVENTS=2 -DCOARSE -DNO_CAUSE
check again holds $two -DEVENTS=1 -DROUNDS=2 -DCOARSE -DNO_CAUSE

# Help comes: a handler goes on until no mark that thieves may have lies in any chain.
large help-three holds $helper
check help holds $two -DC=3 -DEVENTS=3 -DCOARSE -DLONG -DNO_CAUSE
check help-outside holds $two -DEVENTS=1 -DOUTSIDER=1 -DCOARSE -DLONG -DPROMPT -DSTART=0

# A caller from outside, while workers leave.
check outside holds $two -DEVENTS=1 -DOUTSIDER=1 -DCOARSE
check outside-again holds $two -DEVENTS=0 -DOUTSIDER=1 -DROUNDS=2 -DCOARSE
check outside-twice holds $two -DEVENTS=0 -DOUTSIDER=2 -DCOARSE
check unmarked holds $two -DEVENTS=1 -DUNMARKED=1 -DCOARSE

# A worker that begins late, or whose thread is refused; want of memory.
check late holds $two -DEVENTS=1 -DROUNDS=2 -DLATE -DCOARSE
large late-three holds $three -DEVENTS=1 -DLATE -DSTART=0
check refused holds $two -DPINNED=2 -DEVENTS=1 -DROUNDS=2 -DREFUSED=1 -DCOARSE
check halted holds $two -DEVENTS=2 -DHALTS -DCOARSE

# The same beside two handlers that register on each other for ever: what they register on a third colour
# is run, or all leave.
check pair holds $pair
check late-pair holds $pair -DLATE -DCREW
check late-pair-pinned holds $pair -DLATE -DCREW -DPINNED=3
check late-pair-alone holds $pair -DLATE
check refused-pair holds $pair -DREFUSED=0 -DCREW
check refused-pair-pinned holds $pair -DREFUSED=0 -DCREW -DPINNED=3
check refused-pair-alone holds $pair -DREFUSED=0

# What a worker remembers of its looks.
check places holds $two -DEVENTS=1 -DCOARSE -DPLACES -DPROMPT

# Each run ends.
check ends-two holds $two -DPINNED=2 -DEVENTS=2 -DENDS
check ends-no-victims holds $two -DALONE -DEVENTS=1 -DENDS -DCOARSE
check ends-outside holds $two -DEVENTS=0 -DOUTSIDER=1 -DENDS -DCOARSE

# Wrong bells. The first two are the order that the bell once had, with what it had then beside it.
large wrong-order-three asleep $sleeper -DFLAG_FIRST -DNEVER_LAST -DNEVER_FEWER
check wrong-crew-once asleep $two -DPINNED=2 -DEVENTS=1 -DROUNDS=2 -DREFUSED=1 -DCOARSE -DNEVER_FEWER -DNEVER_LAST
check wrong-order cause $two -DEVENTS=0 -DOUTSIDER=2 -DCOARSE -DFLAG_FIRST
check wrong-crew cause $two -DPINNED=2 -DEVENTS=1 -DROUNDS=2 -DREFUSED=1 -DCOARSE -DNEVER_FEWER
check wrong-last asleep $two -DEVENTS=0 -DOUTSIDER=1 -DCOARSE -DNEVER_LAST
check wrong-last-unmarked asleep $two -DEVENTS=0 -DUNMARKED=1 -DCOARSE -DNEVER_LAST
check wrong-news cause $two -DEVENTS=0 -DOUTSIDER=1 -DCOARSE -DNO_NEWS
check wrong-leave-untold cause $two -DEVENTS=0 -DOUTSIDER=1 -DCOARSE -DLEAVE_UNTOLD
check wrong-leave-unrung asleep $two -DEVENTS=1 -DOUTSIDER=1 -DCOARSE -DLEAVE_UNRUNG
check wrong-hunt asleep $two -DEVENTS=2 -DCOARSE -DNO_LAST_HUNT -DNEVER_LAST
check wrong-look cause $two -DALONE -DEVENTS=0 -DOUTSIDER=1 -DCOARSE -DNO_LOOK
check wrong-second-look asleep $two -DEVENTS=1 -DOUTSIDER=1 -DCOARSE -DLONG -DNO_SECOND_LOOK
check wrong-hint cause $two -DALONE -DEVENTS=0 -DOUTSIDER=1 -DCOARSE -DHINT_AFTER
check wrong-called clean $two -DEVENTS=1 -DOUTSIDER=1 -DCOARSE -DUNCOUNTED
check wrong-leave-counted clean $two -DEVENTS=1 -DOUTSIDER=1 -DCOARSE -DLEAVE_COUNTED
check wrong-vain-late ends $pair -DLATE -DIN_VAIN_ONLY
check wrong-vain-refused ends $pair -DREFUSED=0 -DIN_VAIN_ONLY
check wrong-home hunted $two -DEVENTS=1 -DCOARSE -DPLACES -DPROMPT -DSTALE_HOME
check wrong-own cause $two -DEVENTS=0 -DOUTSIDER=1 -DCOARSE -DWOKEN_ALONE

while ((jobs_now > 0)); do
    wait -n || faults=$((faults + 1))
    jobs_now=$((jobs_now - 1))
done
exit $((faults > 0))
