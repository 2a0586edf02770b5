#!/usr/bin/env bash
# differential.sh [SEED [PICTURES]]: the proved judge against the second program (second/README.md), call by call: report,
# check and walk (40 bytes each), claim and conversion, who holds a target; report, check and walk of trials, and where their
# vectors lie. Runs the second program's own tests, then the hand-written cases, all edges of reading and PICTURES random
# pictures of seed SEED, with good and damaged patches; then what `fpb report --explain' and `fpb tree' print of 150 pictures, or
# of 15 in a hundred of PICTURES if that is more, what `fpb claims' prints of an ID and an address in the first 30 of them, and
# what `fpb trial' and `fpb trial --explain' print of 60 pictures with a patch each, or of 6 in a hundred.
# A longer run with another seed: tests/differential.sh 7 50000
# A difference prints the picture's file, the call and both answers, or a diff of both texts.
# Last line: N passed, M failed, counting answers, texts and tests.
set -u
cd "$(dirname "$(readlink -f "$0")")/.." || exit 2
self=tests/differential.sh
. tools/build.sh
. tools/second.sh
seed=${1:-1} pictures=${2:-1000}
passed=0 failed=0
work=target/differential
chunk=500

give_up() {
    echo "$1"
    echo "$passed passed, $((failed + 1)) failed"
    exit 1
}

rm -rf "$work"
mkdir -p "$work"
build_second || give_up "there is no second program to compare with"
for program in batch claimed explain tree trial; do
    build "$program" || give_up "the $program program is not proved"
done
echo "built at $SECONDS s"

tests=$(cd second && cargo test --offline --quiet 2>&1) || { printf '%s\n' "$tests"; give_up "the second program's own tests fail"; }
count=$(awk '/^test result: ok/ { n += $4 } END { print n + 0 }' <<<"$tests")
passed=$((passed + count))
echo "the second program's own tests: $count (at $SECONDS s)"

# compare NAME: both answers to the batch NAME, line by line
compare() {
    local name=$1 same other
    "$second" answers <"$work/$name.batch" >"$work/$name.expected" &
    run_built batch <"$work/$name.batch" >"$work/$name.actual" || echo "batch: status $?"
    wait $! || echo "second: status $?"
    read -r same other < <(agreement "$work/$name.expected" "$work/$name.actual")
    passed=$((passed + same)) failed=$((failed + other))
    if ! (cd "$work" && "$second" compare "$name.expected" "$name.actual" "$name.batch") >"$work/$name.compared"; then
        [ "$other" -gt 0 ] || failed=$((failed + 1))
        mkdir -p "$work/$name"
        mv "$work"/difference-* "$work/$name/" 2>/dev/null
        echo "in $work/$name:"
        cat "$work/$name.compared"
    elif [ "$same" -eq 0 ]; then
        failed=$((failed + 1))
        echo "$name: no answers at all"
    else
        rm -f "$work/$name".*
    fi
    echo "$name: $same answers agree, $other differ (at $SECONDS s)"
}

# compare_text PICTURE PROGRAM COMMAND [ARGS..]: what a program prints of a picture, against that command of the second program
compare_text() {
    local picture=$1 program=$2 command=$3
    shift 3
    "$second" "$command" "$@" <"$picture" >"$work/text.expected" &
    run_built "$program" "$@" <"$picture" >"$work/text.actual" || echo "$program: status $?"
    wait $! || echo "second: status $?"
    if [ -s "$work/text.expected" ] && cmp -s "$work/text.expected" "$work/text.actual"; then
        passed=$((passed + 1))
    else
        failed=$((failed + 1))
        echo "$picture: $program $* (actual, +) differs from second $command $* (expected, -)"
        diff -u "$work/text.expected" "$work/text.actual" | tail -n +3
    fi
}

# compare_texts SEED COUNT: both texts of so many pictures
compare_texts() {
    local before=$failed n
    "$second" pictures "$1" "$2" "$work/pictures" || give_up "no pictures of seed $1"
    for ((n = 1; n <= $2; n++)); do
        compare_text "$work/pictures/$n.picture" explain explain
        compare_text "$work/pictures/$n.picture" tree tree
    done
    echo "explain and tree: $((2 * $2 - failed + before)) texts agree, $((failed - before)) differ (at $SECONDS s)"
}

# compare_claims COUNT: who holds an ID and an address in each of the first pictures of compare_texts: the target that its report
# names, and else one that many hold
compare_claims() {
    local before=$failed n picture line id address
    for ((n = 1; n <= $1; n++)); do
        picture=$work/pictures/$n.picture id=0300 address=e0500000
        line=$("$second" explain <"$picture" | head -n 1)
        if [[ $line =~ \ id\ ([0-9a-f]+) ]]; then id=${BASH_REMATCH[1]}; fi
        if [[ $line =~ \ addr\ ([0-9a-f]+) ]]; then address=${BASH_REMATCH[1]}; fi
        compare_text "$picture" claimed claims id "$id"
        compare_text "$picture" claimed claims addr "$address"
    done
    echo "claims: $((2 * $1 - failed + before)) texts agree, $((failed - before)) differ (at $SECONDS s)"
}

# compare_trials SEED COUNT: both texts of so many pictures with a patch each
compare_trials() {
    local before=$failed n
    "$second" patches "$1" "$2" "$work/patches" || give_up "no patches of seed $1"
    for ((n = 1; n <= $2; n++)); do
        compare_text "$work/patches/$n.picture" trial trial "$work/patches/$n.patch"
        compare_text "$work/patches/$n.picture" explain explain "$work/patches/$n.patch"
    done
    echo "trial and explain: $((2 * $2 - failed + before)) texts agree, $((failed - before)) differ (at $SECONDS s)"
}

# the hand-written cases, and a picture longer than the batch program keeps
{ "$second" batch; printf 'P\100\0\1\0'; head -c 65600 /dev/zero; printf RC; } >"$work/hand-written.batch"
compare hand-written
texts=$((pictures * 15 / 100 > 150 ? pictures * 15 / 100 : 150))
trials=$((pictures * 6 / 100 > 60 ? pictures * 6 / 100 : 60))
first_seed=$seed
while [ "$pictures" -gt 0 ]; do
    now=$((pictures < chunk ? pictures : chunk))
    "$second" generate "$seed" "$now" >"$work/seed-$seed.batch" || give_up "no pictures of seed $seed"
    compare "seed-$seed"
    seed=$((seed + 1)) pictures=$((pictures - now))
done
compare_texts "$first_seed" "$texts"
compare_claims 30
compare_trials "$first_seed" "$trials"
echo "$passed passed, $failed failed"
[ "$failed" -eq 0 ]
