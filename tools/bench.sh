#!/usr/bin/env bash
# bench.sh [--no-counts]: the proved calls as native machine code, against the same algorithm in plain Rust (bench/), side by
# side in one run: times, instruction counts by callgrind, trials, and growth; then what a long history costs. Prints tables;
# docs/BENCHMARKS.md has those of one run.
set -eu
case "$*" in
    "" | --no-counts) ;;
    -h | --help) sed -n '2,/^set /s/^# //p' "$0"; exit ;;
    *) echo "usage: bench.sh [--no-counts]" >&2; exit 2 ;;
esac
cd "$(dirname "$(readlink -f "$0")")/.."
self=bench.sh
. tools/build.sh
work=$PWD/target/bench
rm -rf "$work"
mkdir -p "$work"

# the proved libraries as archives that host programs link
for archive in fiswalend.a timing.a; do
    build "$archive" || exit 1
    cp "$built/$archive" "$work/"
done
(cd second && cargo build --release --offline --quiet)
(cd bench && RUSTFLAGS=$(printf -- '-C link-arg=%s ' "$work"/fiswalend.a "$work"/timing.a) cargo build --release --offline --quiet)
bench=$PWD/bench/target/release/bench
pictures=()
for kind in flat nested chain high low rid wide; do
    second/target/release/second picture 1 "$kind" >"$work/$kind.picture"
    pictures+=("$kind" "$work/$kind.picture")
done
pictures+=(tiny samples/one-port.picture)

processor=$(LC_ALL=C lscpu 2>/dev/null | sed -n 's/^Model name: *//p' | head -n 1)
[ -n "$processor" ] || processor=$(sed -n 's/^model name[^:]*: //p' /proc/cpuinfo | head -n 1)
echo "$(uname -sm), $(nproc) cores, $processor; $(rustc --version)"
echo
"$bench" times "${pictures[@]}"
echo
"$bench" trials "${pictures[@]}"
echo
"$bench" growth
echo
cc -O2 -Iinclude bench/history.c "$work"/fiswalend.a -o "$work/history"
"$work/history" "$work/flat.picture"
[ "${1:-}" != --no-counts ] || exit 0
command -v valgrind >/dev/null || { echo "valgrind is missing: no counts"; exit 0; }

# counted SIDE KIND PICTURE N: the instructions of all calls, N times over, with what comes before and after them
counted() {
    valgrind --tool=callgrind --callgrind-out-file="$work/callgrind.out" "$bench" count "$@" 2>&1 >"$work/calls" |
        sed -n 's/.*Collected : \([0-9]*\).*/\1/p'
}

echo
echo "| picture | call | instructions, proved | plain Rust | ratio |"
echo "|---|---|---|---|---|"
for ((i = 0; i < ${#pictures[@]}; i += 2)); do
    for kind in check walk claim reading; do
        once=() twice=()
        for side in proved plain; do
            once+=("$(counted $side $kind "${pictures[i + 1]}" 1)")
            twice+=("$(counted $side $kind "${pictures[i + 1]}" 2)")
        done
        calls=$(cat "$work/calls")
        awk -v p=$((twice[0] - once[0])) -v q=$((twice[1] - once[1])) -v n="$calls" -v what="| ${pictures[i]} | $kind |" \
            'BEGIN { printf "%s %.0f | %.0f | %.2f |\n", what, p / n, q / n, p / q }'
    done
done
