#!/usr/bin/env bash
# The archive from C: installs it, compiles the header, the test programs and the examples, links them with it and runs them. The
# kit's own clang, linker and loader do this. A compiler of the host compiles them too, and on x86-64 links and runs them. Last
# line: N passed, M failed.
set -u
cd "$(dirname "$(readlink -f "$0")")/.." || exit 2
. tools/kit.sh
work=$(mktemp -d)
trap 'rm -rf "$work"' EXIT
passed=0 failed=0

# expect NAME COMMAND..: one test, that the command succeeds
expect() {
    local name=$1
    shift
    if "$@" >"$work/said" 2>&1; then
        passed=$((passed + 1))
    else
        failed=$((failed + 1))
        echo "c: $name"
        cat "$work/said"
    fi
}

# counts COMMAND..: runs a test program, and counts its own tests
counts() {
    "$@" >"$work/printed" 2>&1
    grep -v ' passed, ' "$work/printed"
    if [[ $(tail -n 1 "$work/printed") =~ ^([0-9]+)\ passed,\ ([0-9]+)\ failed$ ]]; then
        passed=$((passed + BASH_REMATCH[1])) failed=$((failed + BASH_REMATCH[2]))
    else
        failed=$((failed + 1))
        echo "c: the test program did not come to its end: $*"
    fi
}

# prints STATUS WANTED COMMAND..: one test, of the command's status and of all that it prints: a slash for each line end, and
# what goes to standard error behind a bar
prints() {
    local wanted="$1 $2" got
    shift 2
    "$@" >"$work/out" 2>"$work/err"
    got="$? $(cat "$work/out" <(sed 's/^/|/' "$work/err") | tr '\n' '/')"
    expect "$got and not $wanted: $*" [ "$got" = "$wanted" ]
}

# to_full COMMAND..: with nowhere to write to
to_full() { "$@" >/dev/full; }

# example RUN..: examples/chassis.c on pictures that are sound, unsound and unreadable, and where it cannot read or write
example() {
    local chain='number 7, a port has more than 15 ports above it in its chain; port 16'
    local shared='number 12, an address has two holders at one place; port 2 and port 3, least target e0500000'
    local own='number 11, an ID has two holders at one place, or a port claims its own ID'
    local stray='number 13, a port holds an ID that its parent does not claim'
    local taken='number 18, a port claims an ID that its parent makes Type 0 or refuses and does not pass on as Type 1'
    local short='number 1, the picture is shorter than 72 bytes (76 in edition 2) or longer than 65,536'
    shared="$shared/port 2 holds it by low/port 3 holds it by low"
    local video='number 12, an address has two holders at one place; port 2 and port 3, least target a0000'
    video="$video/port 2 holds it by mem pref low vga/port 3 holds it by vga"
    prints 0 'check: clear/walk: device port 2 Function 5, crossing 0 1 2/' "$@" samples/switch.picture config host 0305
    prints 0 'check: clear/walk: host, crossing nothing/' "$@" samples/switch.picture address host e0000000
    prints 0 'check: clear/' "$@" samples/switch.picture
    prints 1 'check: clear/walk: unsupported request port 2, crossing nothing/' "$@" samples/switch.picture id 2 0x300
    prints 1 "check: $shared/walk: host, crossing nothing/" "$@" samples/shared-granule.picture address host 0
    prints 1 "check: $shared/walk: doubled port 2 and port 3, crossing 0 1/" \
        "$@" samples/shared-granule.picture address host e0500000
    prints 1 "check: $video/" "$@" samples/four-decoders.picture
    prints 1 "check: $own; port 0 and port 0, least target 108/port 0 holds it by own bus/" "$@" samples/own-id-claimed.picture
    prints 1 "check: $own; port 1 and port 1, least target 108/port 1 holds it by own bus/" \
        "$@" samples/own-id-claimed-edition-2.picture
    prints 1 "check: $stray; port 1, least target 200/port 1 holds it by bus/" "$@" samples/stray-id.picture
    prints 1 "check: $stray; port 1, least target 8/port 1 holds it by own/" \
        "$@" samples/chain-of-16.picture
    prints 1 "check: $taken; port 2, least target 300/port 2 holds it by bus/walk: unsupported request port 1, crossing 0 1/" \
        "$@" samples/taken-id.picture config host 0300
    prints 1 "check: $taken; port 3, least target 308/port 3 holds it by bus rid/" "$@" samples/taken-unit.picture
    prints 0 'check: clear/walk: function port 3, crossing 0 1 2/' "$@" samples/range-off.picture config host 0300
    prints 1 "check: $chain/walk: $chain/" "$@" samples/chain-of-17.picture id 4 0300
    prints 0 'check: clear/walk: device port 2, crossing 3 1 0 0 1 2/' "$@" samples/redirect.picture address 3 e0500000
    prints 1 "check: $short/" "$@" samples/short.picture
    prints 1 "check: $short/" "$@" samples/edition-2-short.picture
    prints 1 "check: number 2, the picture's edition is neither 1 nor 2/" "$@" samples/edition-3.picture
    prints 2 '|chassis: samples/none cannot be opened/' "$@" samples/none
    prints 2 '|chassis: samples cannot be read/' "$@" samples
    prints 2 '|chassis: the output cannot be written/' to_full "$@" samples/switch.picture
    prints 2 '|usage: chassis PICTURE [id|address|config host|PORT TARGET]/' "$@" samples/switch.picture id host
}

# example_words RUN..: it takes whole words that fit, and nothing else
example_words() {
    local question='number 16, a kind, an ID, a start or a port was asked for that there is not' word
    for word in mail ID '' 'id '; do
        prints 2 "|chassis: KIND is '$word': id, address or config is wanted/" "$@" samples/switch.picture "$word" host 0300
    done
    for word in 2x 0x2 -2 +2 ' 2' '2 ' '' Host 255 4294967296 4294967298 99999999999999999999; do
        prints 2 "|chassis: START is '$word': host or a device port's number, in decimal digits, is wanted/" \
            "$@" samples/switch.picture id "$word" 0300
    done
    for word in 0300h 3:0 -1 +1 ' 1' '1 ' '' 0x 0x0x1 x1 10000000000000000; do
        prints 2 "|chassis: TARGET is '$word': a hexadecimal number of at most 64 bits is wanted/" \
            "$@" samples/switch.picture id host "$word"
    done
    prints 1 "check: clear/walk: $question/" "$@" samples/switch.picture id 4294967295 0300
    prints 1 "check: clear/walk: $question/" "$@" samples/switch.picture id host 10000
    prints 0 'check: clear/walk: device port 3, crossing 2 3/' "$@" samples/switch.picture id 002 0x0400
    prints 0 'check: clear/walk: host, crossing nothing/' "$@" samples/switch.picture address host 0xFFFFFFFFffffffff
}

# example_history RUN..: examples/history.c on the picture that it is for, on others, and where it cannot read or write
example_history() {
    local first='port 3 gives up the MiB that port 2 has too' goes='; ID 0400 goes to device port 3/'
    local clear="nothing was found wrong$goes" two='an ID has two holders at one place, or a port claims its own ID (port 2)'
    local printed="added, $first: version 1 is the last/added, port 3 gets bus 3, by mistake: version 3 is the last/"
    local up_to_1="  version 0: an address has two holders at one place (port 2)$goes  version 1: $clear"
    printed="$printed$up_to_1  version 2: $two$goes  version 3: $two; ID 0400 goes to unsupported request port 1/"
    printed="${printed}wound back to version 1/"
    printed="${printed}refused, port 3 gets bus 4 back: number 38, a change's old byte is not what the version before it holds/"
    printed="${printed}added, the card of port 3 is exchanged: version 3 is the last/$up_to_1"
    printed="$printed  version 2: a port breaks a rule of the tree, by its kind, its parent or as a later child (port 3)/"
    prints 0 "$printed  version 3: $clear" "$@" samples/shared-granule.picture
    prints 1 "refused, $first: number 37, a change names a port or a byte that is not in the first picture/" "$@" samples/switch.picture
    prints 1 "refused, $first: number 38, a change's old byte is not what the version before it holds/" "$@" samples/waiting-card.picture
    prints 1 "refused, $first: number 2, the picture's edition is neither 1 nor 2/" "$@" samples/edition-3.picture
    prints 2 '|history: samples/none cannot be opened/' "$@" samples/none
    prints 2 '|history: samples cannot be read/' "$@" samples
    prints 2 '|history: the output cannot be written/' to_full "$@" samples/shared-granule.picture
    prints 2 '|usage: history PICTURE/' "$@"
}

# man_numbers: the numbers of the man page in words, one to a line
man_numbers() {
    awk '/^\.SH / { on = $2 == "NUMBERS" }
        on && /^\.BR FPB_/ { number = $NF; gsub(/[^0-9]/, "", number); getline; print number, $0 }' man/fiswalend.3
}

# clear_samples: that calls.c has every sample that is clear: it asks for every port of those, as the host does
clear_samples() {
    local report name
    for report in samples/*.report; do
        name=$(basename "$report" .report)
        if grep -qx clear "$report"; then
            expect "tests/c/calls.c has not $name as clear" grep -q "^    {\"$name\", {0, 0, 255, 255," tests/c/calls.c
        fi
    done
}

strict=(-Wall -Wextra -Wpedantic -Werror)
languages="c:c99 c:c11 c++:c++11 c++:c++17"
programs="tests/c/calls.c tests/c/claims.c tests/c/editions.c tests/c/history.c examples/chassis.c examples/history.c"

# compiled COMMAND..: that the header by itself and the test programs compile as each language
compiled() {
    local language words file
    for language in $languages; do
        words=(-x "${language%%:*}" "-std=${language#*:}" "${strict[@]}")
        for file in tests/c/*.c; do expect "$file as ${language#*:}, by $1" "$@" "${words[@]}" "$file"; done
    done
}

# run_programs FOLDER RUN..: runs what is linked below a folder
run_programs() {
    local folder=$1 name
    shift
    counts "$@" "$folder/tests/c/calls" samples tests/number-texts
    for name in claims editions history; do counts "$@" "$folder/tests/c/$name" samples; done
    example "$@" "$folder/examples/chassis"
    example_words "$@" "$folder/examples/chassis"
    example_history "$@" "$folder/examples/history"
}

by_kit() {
    local words=(-isystem tests/c/headers -I "$work/lib/include") archive=$work/lib/lib/libfiswalend.a program
    mkdir -p "$work"/kit/{tests/c,examples}
    compiled kit_cc "$work/object.o" "${words[@]}"
    for program in $programs; do
        expect "$program by the kit's clang" kit_cc "$work/object.o" -std=c99 "${strict[@]}" "${words[@]}" "$program"
        expect "$program by the kit's linker" kit_link "$work/kit/${program%.c}" "$work/object.o" "$archive"
    done
    run_programs "$work/kit" run_x86
}

# finds the installed library as a C project does, and links it
by_host() {
    local words=(-I "$work/lib/include") libs=(-L "$work/lib/lib" -lfiswalend) program
    if command -v pkg-config >/dev/null; then
        export PKG_CONFIG_PATH=$work/lib/lib/pkgconfig
        read -ra words < <(pkg-config --cflags fiswalend)
        read -ra libs < <(pkg-config --libs fiswalend)
    fi
    mkdir -p "$work"/host/{tests/c,examples}
    for program in $programs; do
        expect "$program by the host" cc -std=c99 "${strict[@]}" "${words[@]}" "$program" "${libs[@]}" -o "$work/host/${program%.c}"
    done
    run_programs "$work/host"
}

expect "tools/install.sh" tools/install.sh "$work/lib"
expect "the numbers of man/fiswalend.3" diff <(man_numbers) tests/number-texts
clear_samples
by_kit
if command -v cc >/dev/null && command -v c++ >/dev/null; then compiled cc -fsyntax-only -I "$work/lib/include"; fi
if [ "$(uname -m)" = x86_64 ] && command -v cc >/dev/null; then by_host; fi
echo "$passed passed, $failed failed"
[ "$failed" -eq 0 ]
