#!/usr/bin/env bash
# bench/random.sh [--connections N] [--jobs N] [--seed N] [--uses N] [--only N] [--seconds N]: random connections by `sws replay`
# against `sws answer` of the same bytes; bench/peer/src/random.rs says how. It wants the program (`./sws`) built, and cargo.
set -eu
top=$(cd "$(dirname "$(readlink -f "${BASH_SOURCE[0]}")")/.." && pwd)
program=$top/crates/sws_main/out/sws_main
[ -x "$program" ] || { printf "random: the program isn't built\n" >&2; exit 2; }
cd "$top/bench/peer"
exec cargo run --release --offline --quiet --bin random -- "$program" "$@"
