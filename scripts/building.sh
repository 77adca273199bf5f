# What ./sws, ./swsd and ./app share: which crates a crate depends on, and a build of some of them. Sourced with `top`, the repository.
#
# A build is `rt ci` over a copy of the crates, without their mutants: it uses all processors, takes what the gate (`.ci/run`) has proved
# on this machine, and what it proves itself the gate doesn't prove again.

# The crates named and those that they depend on, by crates.txt.
crates_of() {
    awk -v named="$*" -F: '/^[a-z]/ { split($1, words, " "); uses[words[1]] = $2 }
        function visit(name, list, n, i) {
            if (seen[name]++ || !(name in uses)) return
            print name
            n = split(uses[name], list, " ")
            for (i = 1; i <= n; i++) visit(list[i])
        }
        END { n = split(named, all, " "); for (i = 1; i <= n; i++) visit(all[i]) }' "$top/crates.txt"
}

# Whether a source of these crates is newer than the file, or the file isn't there.
is_older() {
    local stamp=$1 folders=("${@:2}")
    [ -e "$stamp" ] || return 0
    folders=("${folders[@]/#/$top/crates/}")
    [ -n "$(find "${folders[@]}" "$top/crates.txt" \( -name out -o -name must-fail -o -name mutants \) -prune -o -type f -newer "$stamp" -print -quit)" ]
}

# What a first build of this kind (`sws` or `app`) took on a machine with about as many processors, by bench/first_build.txt.
expected() {
    awk -v kind="$1" -v have="$(nproc 2>/dev/null || echo 1)" '$1 == kind { apart = $2 > have ? $2 - have : have - $2
            if (best == "" || apart < best) { best = apart; said = $3 " minutes on " $2 " processors" } }
        END { print said ? said : "half an hour or more" }' "$top/bench/first_build.txt" 2>/dev/null
}

# Copies these crates to the folder, as a repository of their own.
copy_crates() {
    local room=$1 name part
    shift
    mkdir -p "$room/crates" && cp "$top/HANDLES" "$room/" || return 1
    for name in "$@"; do
        mkdir "$room/crates/$name" || return 1
        for part in "$top/crates/$name"/*; do
            case ${part##*/} in
            out | must-fail | mutants) ;;
            *) cp -R "$part" "$room/crates/$name/" || return 1 ;;
            esac
        done
        grep -E "^$name( [a-z]+)?:" "$top/crates.txt" >>"$room/crates.txt" || return 1
    done
}

# Says of each crate that `rt ci` is done with the how-manyth it is, of how many, and how long it has taken so far.
follow() {
    awk -v who="$1" -v of="$2" -v began="$(date +%s)" '/^rt: [a-z_]+ (proved$|is kept)/ {
            "date +%s" | getline now; close("date +%s")
            printf "%s: %d of %d, %s%s, %d:%02d\n", who, ++done, of, $2, / is kept/ ? " (proved before)" : "", (now - began) / 60, (now - began) % 60
            fflush() }'
}

# Proves these crates in a copy, speaking as WHO of WHAT, and calls `keep ROOM` for what is to stay of it: build WHO WHAT KEEP CRATE..
build() {
    local who=$1 what=$2 keep=$3 room log
    shift 3
    room=$(mktemp -d) && log=$(mktemp) || return 1
    copy_crates "$room" "$@" || return 1
    printf '%s: building %s, which proves %d crates. From nothing that took %s.\n' "$who" "$what" "$#" "$(expected "$who")" >&2
    (cd "$room" && exec rt ci) </dev/null 2>&1 | tee "$log" | follow "$who" "$#" >&2
    if [ "${PIPESTATUS[0]}" -eq 0 ] && "$keep" "$room"; then
        rm -rf "$room" "$log"
        return 0
    fi
    printf '%s: %s: not built. The end of what rt said, the whole of which is in %s:\n' "$who" "$what" "$log" >&2
    grep -E '^rt: ' "$log" | tail -n 20 >&2
    rm -rf "$room"
    return 1
}
