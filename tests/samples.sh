#!/usr/bin/env bash
# Every sample by `fpb report', `fpb report --explain' and `fpb tree': what is printed is in NAME.report, NAME.explain and, for a
# picture that reads, NAME.tree; the sentence begins as tests/number-texts has it. Every patch by `fpb trial' over the picture that
# its name begins with: what is printed is in NAME.trial, and with `--explain' in NAME.explain. Last line: N passed, M failed.
set -u
cd "$(dirname "$(readlink -f "$0")")/.." || exit 2
passed=0 failed=0

# prints STATUS FILE COMMAND..: one test, that a command ends so and prints what the file has
prints() {
    local wanted=$1 file=$2 got status
    shift 2
    got=$("$@")
    status=$?
    if [ "$got" = "$(cat "$file")" ] && [ "$status" -eq "$wanted" ]; then
        passed=$((passed + 1))
    else
        failed=$((failed + 1))
        printf '%s: status %s and not %s, printed\n%s\nand not what %s has\n' "$*" "$status" "$wanted" "$got" "$file"
    fi
}

# begins FILE NUMBER: one test, that the last line of an explanation begins with the number's text
begins() {
    local text
    text=$(sed -n "s/^$2 //p" tests/number-texts)
    case $(tail -n 1 "$1") in
    "${text^}"*) passed=$((passed + 1)) ;;
    *) failed=$((failed + 1)) && echo "$1 does not say \`${text^}'" ;;
    esac
}

for picture in samples/*.picture; do
    name=${picture%.picture} status=1 number=0
    read -r word number _ <"$name.report"
    [ "$word" = refused ] || { status=0 number=0; }
    prints "$status" "$name.report" ./fpb report "$picture"
    prints "$status" "$name.explain" ./fpb report --explain "$picture"
    begins "$name.explain" "$number"
    if [ "$number" -eq 0 ] || [ "$number" -gt 10 ]; then
        prints 0 "$name.tree" ./fpb tree "$picture"
    else
        prints 1 "$name.report" ./fpb tree "$picture"
    fi
done
for patch in samples/*.patch; do
    name=${patch%.patch} picture=${patch##*/} status=1
    picture=samples/${picture%%.*}.picture
    read -r word number _ <"$name.trial"
    [ "$word" = refused ] || { status=0 number=0; }
    prints "$status" "$name.trial" ./fpb trial "$patch" "$picture"
    prints "$status" "$name.explain" ./fpb trial --explain "$patch" "$picture"
    begins "$name.explain" "$number"
done
echo "$passed passed, $failed failed"
[ "$failed" -eq 0 ]
