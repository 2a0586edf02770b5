#!/usr/bin/env bash
# histories.sh [SEED [STORIES]]: the proved calls of a settings history against the second program, step by step: numbers, the room
# after each run, the bytes of each version, and what the check and a walk say of them. tests/c/histories.c makes the calls: it is
# compiled, linked with the archive and run by the kit. Both get the hand-written stories, then STORIES random ones of seed SEED.
# A longer run with another seed: tests/histories.sh 7 20000
# The first difference is shown with its step and both lines, and its story is kept in target/histories.
# Last line: N passed, M failed, counting steps and what is tried of the driver itself.
set -u
cd "$(dirname "$(readlink -f "$0")")/.." || exit 2
self=tests/histories.sh
. tools/build.sh
. tools/second.sh
seed=${1:-1} stories=${2:-400}
passed=0 failed=0
work=target/histories
chunk=500

give_up() {
    echo "$1"
    echo "$passed passed, $((failed + 1)) failed"
    exit 1
}

driver() { run_x86 "$work/driver" "$@"; }

# refused BYTES: that the driver does not take these for stories, and says so
refused() {
    # shellcheck disable=SC2059 # the bytes are written as a format
    if printf "$1" | driver >"$work/said" 2>&1 || ! grep -q '^histories: byte ' "$work/said"; then
        failed=$((failed + 1))
        echo "the driver takes $1 for stories"
    else
        passed=$((passed + 1))
    fi
}

# show NAME: the first difference of two answers: its step, its story, which is kept, and both lines
show() {
    local name=$work/$1 line told from to
    line=$(awk 'NR == FNR { wanted[FNR] = $0; next }
        !(FNR in wanted) || wanted[FNR] != $0 { print FNR; found = 1; exit }
        END { if (!found) print FNR + 1 }' "$name.expected" "$name.actual")
    told=$(driver "$line" <"$name.stories")
    printf '%s\n' "$1, line $line:" "$told"
    echo "second program: $(sed -n "${line}p" "$name.expected")"
    echo "proved calls:   $(sed -n "${line}p" "$name.actual")"
    if [[ $told =~ bytes\ ([0-9]+)\ to\ ([0-9]+) ]]; then
        from=${BASH_REMATCH[1]} to=${BASH_REMATCH[2]}
        tail -c "+$((from + 1))" "$name.stories" | head -c "$((to - from + 1))" >"$name.difference"
        echo "$name.difference has the story"
    fi
}

# compare NAME: both answers to the stories NAME, line by line
compare() {
    local name=$work/$1 same other ended=0
    "$second" story-answers <"$name.stories" >"$name.expected" &
    driver <"$name.stories" >"$name.actual" || { echo "the driver: status $?" && ended=1; }
    wait $! || { echo "second: status $?" && ended=1; }
    read -r same other < <(agreement "$name.expected" "$name.actual")
    passed=$((passed + same)) failed=$((failed + other))
    if [ "$other" -gt 0 ]; then
        show "$1"
    elif [ "$ended" -ne 0 ] || [ "$same" -eq 0 ]; then
        failed=$((failed + 1))
        echo "$1: not all stories are answered"
    else
        rm -f "$name".*
    fi
    echo "$1: $same steps agree, $other differ (at $SECONDS s)"
}

rm -rf "$work"
mkdir -p "$work"
build_second || give_up "there is no second program to compare with"
build fiswalend.a || give_up "the archive is not proved"
build_histories "$work/driver" >"$work/said" 2>&1 || give_up "the driver is not compiled and linked: $(cat "$work/said")"
echo "built at $SECONDS s"
for bytes in 1 '\377\377\377\377' '\0\0\0\0' '\0\0\0\0\1\20\0\0' '\0\0\0\0\0\0\0\0\0\0\0\0\1\0\0\0' \
    '\0\0\0\0\0\0\0\0\0\0\0\0\1\0\0\0\5' '\0\0\0\0\0\0\0\0\0\0\0\0\1\0\0\0\1\1\0\0\0'; do
    refused "$bytes"
done
"$second" story-cases >"$work/hand-written.stories" || give_up "no hand-written stories"
compare hand-written
while [ "$stories" -gt 0 ]; do
    now=$((stories < chunk ? stories : chunk))
    "$second" stories "$seed" "$now" >"$work/seed-$seed.stories" || give_up "no stories of seed $seed"
    compare "seed-$seed"
    seed=$((seed + 1)) stories=$((stories - now))
done
echo "$passed passed, $failed failed"
[ "$failed" -eq 0 ]
