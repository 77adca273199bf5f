#!/usr/bin/env bash
# app NAME [WORDS..]: proves the crate NAME of an app over the libraries that it depends on, and runs it with these words. The libraries
# are built first where that isn't done, or where a source of them is newer; after that a change of the app costs the app's own proof.
#
#     app NAME               proves crates/NAME, and runs it where it is a program
#     app --prove NAME [..]  proves it alone; further words are flags of `rattle check`, as --only F or --allow-holes
#     app --test NAME        proves it with its tests, and runs these
#     app --libraries        builds the libraries that apps are written over, mely_app and mely_actor, and nothing else
#
# It is no gate: that is `rt ci NAME`, which also tries the mutants of the crate and of those below it, builds a program by two compilers,
# and compares what it prints with crates/NAME/stdout.
set -u
top=$(cd "$(dirname "$(readlink -f "${BASH_SOURCE[0]}")")" && pwd) || exit 1
. "$top/scripts/building.sh"
began=$(mktemp) || exit 1
trap 'rm -f "$began"' EXIT

fail() {
    printf 'app: %s\n' "$1" >&2
    exit "${2:-2}"
}

# Keeps the libraries of a build in the out/ of each crate.
keep_libraries() {
    local name
    for name in "${libraries[@]}"; do
        mkdir -p "$top/crates/$name/out" && rm -rf "$top/crates/$name/out/rlib" &&
            cp -R "$1/crates/$name/out/rlib" "$top/crates/$name/out/rlib" &&
            touch -r "$began" "$top/crates/$name/out/rlib/built" || return 1
    done
}

# Builds these libraries where one of them isn't there or is older than a source of it.
have_libraries() {
    libraries=("$@")
    local name
    for name in "${libraries[@]}"; do
        if is_older "$top/crates/$name/out/rlib/built" "$name"; then
            build app "the libraries below" keep_libraries "${libraries[@]}" || exit 1
            return
        fi
    done
}

# What is said to `rattle` of the crate: its root, its libraries and the kit's.
flags_of() {
    local name=$1 used
    root=src/main.rt
    [ -e "$top/crates/$name/$root" ] || root=src/lib.rt
    flags=(--crate-name "$name" "$root" --extern "std=$kit/rlibs/std.rlib" -L "dependency=$kit/rlibs")
    for used in $(awk -F: -v name="$name" '/^[a-z]/ { split($1, words, " "); if (words[1] == name) print $2 }' "$top/crates.txt"); do
        if [ -d "$top/crates/$used" ]; then
            flags+=(--extern "$used=$top/crates/$used/out/rlib/$used.rlib")
        else
            flags+=(--extern "$used=$kit/rlibs/$used.rlib")
        fi
    done
    for used in "${libraries[@]}"; do
        flags+=(-L "dependency=$top/crates/$used/out/rlib")
    done
    flags+=(--antt-project "$kit/rattle/logic/antt-project.json" --logic-built "$kit/logic_built" --links "$name=" --jobs "$(nproc)")
}

# Links the object of a program.
link() {
    "$kit/bin/rattle-link" --target x86_64-unknown-linux-gnu --toolchain "$kit/toolchain" -o "$1" "$1.o" "$kit/c/libos_c.a" "$kit/c/liblibc_c.a"
}

[ $# -gt 0 ] || fail 'which crate? ./app NAME [WORDS..]; the head of the script says more'
kit=$(rt doc 2>/dev/null) && kit=$(dirname "$kit") || fail 'the Rattle kit (rt) is not on the path'
way=run
case $1 in
--libraries)
    mapfile -t needed < <(crates_of mely_app mely_actor)
    have_libraries "${needed[@]}"
    exit 0
    ;;
--prove | --test)
    way=${1#--}
    shift
    ;;
esac
name=${1-}
[ -d "$top/crates/${name:-.}/src" ] || fail "crates/$name has no src"
grep -qE "^$name( [a-z0-9_=]+)*:" "$top/crates.txt" || fail "crates.txt has no line for $name"
shift
mapfile -t needed < <(crates_of "$name" | grep -vx "$name")
have_libraries "${needed[@]}"
flags_of "$name"
cd "$top/crates/$name" && mkdir -p out/app || exit 1
SECONDS=0
[ "$way" = test ] && flags+=(--test)
if [ "$way" = prove ]; then
    "$kit/bin/rattle" check "${flags[@]}" --incremental out/app "$@"
    exit
fi
"$kit/bin/rattle" check "${flags[@]}" --incremental out/app >out/app.log 2>&1
code=$?
if [ "$code" -ne 0 ]; then
    cat out/app.log
    fail "crates/$name is not proved" "$code"
fi
printf 'app: %s is proved, in %d:%02d. Its mutants and what it must print are tried by: rt ci %s\n' \
    "$name" $((SECONDS / 60)) $((SECONDS % 60)) "$name" >&2
[ "$root" = src/main.rt ] || [ "$way" = test ] || exit 0
program=$PWD/out/app/$name
"$kit/bin/rattle" build "${flags[@]}" --incremental out/app --toolchain "$kit/toolchain" --backend llvm -o "$program.o" >out/app.log 2>&1 &&
    link "$program" >>out/app.log 2>&1 || {
    cat out/app.log
    fail "crates/$name was not built" 1
}
rm -f "$began"
if [ "$way" = test ]; then
    exec "$program"
fi
exec "$program" "$@"
