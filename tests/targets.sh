#!/usr/bin/env bash
# The commands that take a target, on the cases of tests/targets.cases, one to a line: SAMPLE COMMAND WORDS.. => STATUS what it
# prints, with a slash for each line end; `fpb COMMAND WORDS.. samples/SAMPLE.picture' is run. Last line: N passed, M failed.
set -u
cd "$(dirname "$(readlink -f "$0")")/.." || exit 2
passed=0 failed=0
while IFS= read -r line; do
    read -ra asked <<<"${line%% => *}"
    got=$(./fpb "${asked[@]:1}" "samples/${asked[0]}.picture")
    got="$? ${got//$'\n'//}"
    if [ "$got" = "${line#* => }" ]; then
        passed=$((passed + 1))
    else
        failed=$((failed + 1))
        printf '%s: %s\n' "$line" "$got"
    fi
done <tests/targets.cases
echo "$passed passed, $failed failed"
[ "$failed" -eq 0 ]
