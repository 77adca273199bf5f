# What ./sws and ./swsd answer without a program: help, the version, and words that are wrong whatever the program is built of. Sourced
# with `top`, the repository. What `swsd` says of itself stands in scripts/swsd.txt, which bench/words.py compares with the program.

sws_usage() {
    cat <<'TEXT'
Usage: sws COMMAND

  serve FOLDER --port PORT --connections N   serves the files of a folder to N connections, then prints a summary
  answer FOLDER                              answers one connection: its input on standard input
  replay FOLDER                              runs a script of connections on standard input
  bench N NUMBER                             runs N connections of a script drawn from NUMBER
  check --connections N                      checks the journal of a run of N connections on standard input
  gopher FOLDER --host HOST --port PORT      runs a script by Gopher; with --connections N serves N connections

Options of all but answer: --workers K, --shards G, --batch B, --group N, --cost S
Further: --journal (replay, gopher), --schedule (replay), --log (serve, replay, check), --date SECONDS (serve, answer, replay)

docs/SWS.md says what each of them means. To serve a folder and stay up there is ./swsd.
TEXT
}

# Answers `--help` and `--version`, which are words of the script `sws` and not of the program.
answer_help() {
    case ${1-} in
    --help) sws_usage && exit 0 ;;
    --version) echo 'sws 1.0' && exit 0 ;;
    esac
}

# The first word of `swsd` that is none of its options, where there is one. What stands behind an option with a value, or behind `--`, is
# no option.
stray_option() {
    local skip=no word
    for word in "$@"; do
        if [ "$skip" = yes ]; then
            skip=no
            continue
        fi
        case $word in
        --) return ;;
        -?*)
            if grep -qE "^ +${word%%=*}( |\$)" "$top/scripts/swsd.txt" || [ "$word" = -h ] || [ "$word" = -V ]; then
                case $word in *=*) ;; *) grep -qE "^ +$word <" "$top/scripts/swsd.txt" && skip=yes ;; esac
            else
                echo "$word"
                return
            fi
            ;;
        esac
    done
}

# Answers words that need no program, and ends; returns where a program has to read them: answer_words MAIN WORD..
answer_words() {
    local main=$1 word
    shift
    if [ "$main" = sws_main ]; then
        [ $# -eq 1 ] && answer_help "$@"
        case ${1-} in
        serve | answer | replay | bench | check | gopher) return ;;
        esac
        printf 'sws: the command line is not understood\n' >&2
        sws_usage >&2
        exit 2
    fi
    for word in "$@"; do
        case $word in
        --) break ;;
        -h | --help) cat "$top/scripts/swsd.txt" && exit 0 ;;
        -V | --version) echo 'swsd 1.0' && exit 0 ;;
        esac
    done
    word=$(stray_option "$@")
    if [ -n "$word" ]; then
        printf "error: unexpected argument '%s' found\n\nFor more information, try '--help'.\n" "$word" >&2
        exit 2
    fi
    if [ $# -eq 0 ]; then
        printf "error: the following required arguments were not provided:\n  <FOLDER>\n\nFor more information, try '--help'.\n" >&2
        exit 2
    fi
}
