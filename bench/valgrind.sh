#!/usr/bin/env bash
# bench/valgrind.sh [PROGRAM]: runs each command of the program once under valgrind, and says a line a command: its status, how many
# errors were seen, and how many bytes were lost and were still there at the end.
#
# It wants the program built (`./sws`), valgrind and curl. What each run writes must be what it writes without valgrind. The server is
# asked by two clients on this machine's loopback. The status is 1 where anything was wrong.
set -u
top=$(cd "$(dirname "$(readlink -f "${BASH_SOURCE[0]}")")/.." && pwd) || exit 1
program=${1:-$top/crates/sws_main/out/sws_main}
site=$top/crates/sws_main/data/site
folder=$(mktemp -d) || exit 1
trap 'rm -rf "$folder"' EXIT
wrong=0

[ -x "$program" ] || { printf "valgrind: the program isn't built\n" >&2; exit 2; }
command -v valgrind >/dev/null && command -v curl >/dev/null ||
    { printf 'valgrind: it wants valgrind and curl\n' >&2; exit 2; }

# Threads take turns, so that one which waits for another lets it go on.
under_valgrind() {
    timeout 300 valgrind --fair-sched=yes --leak-check=full --show-leak-kinds=all --track-fds=no \
        --log-file="$folder/log" "$program" "$@"
}

bytes_of() {
    local bytes
    bytes=$(sed -n "s/.*$1: \([0-9,]*\) bytes.*/\1/p" "$folder/log" | tail -n 1)
    printf '%s' "${bytes:-0}"
}

# tell NAME STATUS: says how the run went.
tell() {
    local errors lost still verdict=well
    errors=$(sed -n 's/.*ERROR SUMMARY: \([0-9]*\) errors.*/\1/p' "$folder/log" | tail -n 1)
    lost="$(bytes_of 'definitely lost'), $(bytes_of 'indirectly lost'), $(bytes_of 'possibly lost')"
    still=$(bytes_of 'still reachable')
    if [ "$2" -ne 0 ] || [ "${errors:-none}" != 0 ] || [ "$lost" != '0, 0, 0' ] || ! cmp -s "$folder/owed" "$folder/written"; then
        verdict=WRONG
        wrong=1
        cp "$folder/log" "${TMPDIR:-/tmp}/sws-valgrind.log"
    fi
    printf '%s: %s: status %s, errors %s, bytes lost %s, still there %s\n' \
        "$verdict" "$1" "$2" "${errors:-none}" "$lost" "$still"
}

# check NAME INPUT WORDS..: a command that reads its input and ends.
check() {
    local name=$1 input=$2
    shift 2
    printf '%b' "$input" >"$folder/input"
    "$program" "$@" <"$folder/input" >"$folder/owed"
    under_valgrind "$@" <"$folder/input" >"$folder/written" 2>"$folder/said"
    tell "$name" $?
}

is_listening() {
    grep -qi "^ *[0-9]*: [0-9A-F]*:$(printf '%04X' "$1") [0-9A-F]*:0000 0A" /proc/net/tcp
}

check_server() {
    local port=20480 status
    while is_listening "$port"; do port=$((port + 1)); done
    under_valgrind serve "$site" --port "$port" --connections 2 --workers 2 --shards 2 \
        </dev/null >"$folder/written" 2>"$folder/said" &
    local server=$!
    for _ in $(seq 300); do
        is_listening "$port" && break
        sleep 0.1
    done
    curl -s -m 60 "http://127.0.0.1:$port/a/b.txt" -o "$folder/one"
    curl -s -m 60 "http://127.0.0.1:$port/" -o "$folder/two"
    wait "$server"
    status=$?
    # What was read depends on the client's own lines.
    sed -i 's/^read [0-9]* written/read R written/' "$folder/written"
    printf 'connections 2 done 2 idle 0 fault 0\nread R written %s\n' $((88 + 79)) >"$folder/owed"
    cmp -s "$folder/one" "$site/a/b.txt" && cmp -s "$folder/two" "$site/index.html" || status="$status (bodies differ)"
    tell serve "${status%% *}"
}

script='sws-script 1\nconn\nsend GET /a/b.txt HTTP/1.1~Host: x~~\npause 2\nsend GET /none HTTP/1.1~Host: x~~\nconn\nstep 5\nsend HEAD / HTTP/1.1~\nfault\nconn\ncut 7\nsend x~~\nconn\npause 40\n'
schedule='sws-schedule 1\nstep 0 6\nstep 1 12\nend\n'

check answer 'GET / HTTP/1.1\r\nHost: localhost:8080\r\nUser-Agent: Mozilla/5.0\r\nAccept: text/html\r\n\r\n' answer "$site"
check replay "$script" replay "$site"
check 'replay --workers 2' "$script" replay "$site" --workers 2 --shards 2
check 'replay --schedule' "$schedule$script" replay "$site" --workers 2 --cost 5 --schedule
check bench '' bench 4 1
check 'bench --workers 2' '' bench 4 1 --workers 2
check check 'shard 0 3\nreg 0 0 1 2\ntake 0 0 1\nfin 0 0 1\n' check --connections 0 --workers 2
check_server
exit "$wrong"
