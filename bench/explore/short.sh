#!/usr/bin/env bash
# Explores the smaller crews whole, with up to two preemptions: the same schedules each time, in two minutes, most of them
# compiling. Where the crew can't be compiled, as the kit or gcc is missing, it says so, and that is no fault.
cd "$(dirname "$0")" || exit 1
folder=$(mktemp -d) || exit 1
trap 'rm -rf "$folder"' EXIT
if ! python3 build.py "$folder/right" >"$folder/log" 2>&1; then
    echo "explore: the crew wasn't compiled: $(tail -n 1 "$folder/log")"
    exit 0
fi
python3 explore.py "$folder/right" --gate --seconds 60 >"$folder/log" 2>&1
code=$?
grep -v '^ok' "$folder/log" | sed 's/^/explore: /'
exit $code
