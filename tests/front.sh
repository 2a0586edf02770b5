#!/usr/bin/env bash
# The command fpb as its users meet it: every status and message, input and output that fail, other folders and links, the first
# run (by a stand-in for rt, so that no test waits for a proof), and the installed command. Last line: N passed, M failed.
set -u
umask 022
cd "$(dirname "$(readlink -f "$0")")/.." || exit 2
root=$PWD
self=tests/front.sh
. tools/build.sh
for program in report explain route tree trial claimed; do build "$program" || { echo "0 passed, 1 failed"; exit 1; }; done
work=$(mktemp -d)
chmod 755 "$work"
trap 'rm -rf "$work"' EXIT
passed=0 failed=0

# counts PROBLEM: one test, passed if there is no problem
counts() {
    if [ -z "$1" ]; then passed=$((passed + 1)); else failed=$((failed + 1)) && echo "front: $1"; fi
}

# expect STATUS OUT ERR COMMAND..: that a command ends so, and what it prints and says match the patterns; a slash is a line end
expect() {
    local wanted="$1|$2|$3" status out err
    shift 3
    "$@" >"$work/out" 2>"$work/err"
    status=$?
    out=$(tr '\n' / <"$work/out") err=$(tr '\n' / <"$work/err")
    # shellcheck disable=SC2053 # the right side is a pattern
    if [[ "$status|$out|$err" == $wanted ]]; then counts ""; else counts "$*: $status|$out|$err and not $wanted"; fi
}

# from FILE COMMAND.., in_folder FOLDER COMMAND..
from() { local file=$1; shift; "$@" <"$file"; }
in_folder() { local folder=$1; shift; (cd "$folder" && "$@"); }
closed_input() { "$@" <&-; }
closed_output() { "$@" >&-; }
full_output() { "$@" >/dev/full; }
# as_nobody COMMAND..: in the work folder, as somebody who may not write there
as_nobody() {
    local somebody=(setpriv --reuid 65534 --regid 65534 --clear-groups)
    [ "$(id -u)" -eq 0 ] || somebody=()
    in_folder "$work" env PATH="$work/kit/bin:$PATH" RATTLE_HOME="$kit" ${somebody[@]+"${somebody[@]}"} "$@"
}

one=samples/one-port.picture shared=samples/shared-granule.picture
shared_line='refused 12 addr 00000000e0500000 ports 2 by low 3 by low/'
report_usage='/usage: fpb report \[--explain\] \[FILE\]/'
route_usage='/usage: fpb route KIND START TARGET \[FILE\]/'
claims_usage='/usage: fpb claims KIND TARGET \[FILE\]/'
trial_usage='/usage: fpb trial \[--explain\] PATCH \[FILE\]/'

input_and_output() {
    expect 0 'ports 1/clear/' '' ./fpb report "$one"
    expect 0 'ports 1/clear/' '' from "$one" ./fpb report
    expect 0 'ports 1/clear/' '' from "$one" ./fpb report -
    expect 1 "$shared_line" '' ./fpb report "$shared"
    expect 1 'refused 1/' '' from /dev/null ./fpb report
    expect 1 'refused 1/' '' ./fpb report /dev/zero
    if command -v script >/dev/null; then
        expect 1 'fpb report: reading a picture from the terminal*refused 1*' '' from /dev/null script -qec './fpb report' /dev/null
    fi
    expect 2 '' 'fpb report: samples is a directory, and not a picture/' ./fpb report samples
    expect 2 '' 'fpb tree: standard input is a directory, and not a picture/' from samples ./fpb tree
    expect 2 '' 'fpb report: standard input is closed/' closed_input ./fpb report
    expect 2 '' 'fpb report: standard input is closed/' closed_input ./fpb report -
    expect 0 'ports 1/clear/' '' closed_input ./fpb report "$one"
    expect 2 '' 'fpb route: no such.picture cannot be opened: No such file or directory/' ./fpb route id host 0 "no such.picture"
    expect 2 '' 'fpb report: /proc/self/mem cannot be read/' ./fpb report /proc/self/mem
    expect 2 '' 'fpb report: tests/c/../none cannot be opened: *' env POSIXLY_CORRECT=1 ./fpb report tests/c/../none
    expect 2 '' 'fpb report: standard output cannot be written/' full_output ./fpb report "$one"
    expect 2 '' 'fpb report: standard output cannot be written/' full_output ./fpb report "$shared"
    expect 2 '' 'fpb tree: standard output cannot be written/' closed_output ./fpb tree "$one"
    expect 2 '' 'fpb: standard output cannot be written/' full_output ./fpb --version
    expect 2 '' 'fpb help: standard output cannot be written/' full_output ./fpb help
}

usage() {
    local command
    expect 2 '' 'fpb: a command is missing/usage: fpb COMMAND *' ./fpb
    expect 2 '' "fpb: there is no command \`reprot'/usage: *" ./fpb reprot
    expect 2 '' "fpb: there is no command \`../fpb'/usage: *" ./fpb ../fpb
    expect 2 '' "fpb: there is no command \`common'/usage: *" ./fpb common
    expect 2 '' "fpb: there is no option \`--versoin'/usage: *" ./fpb --versoin
    expect 2 '' "fpb: --version takes no argument*" ./fpb --version report
    expect 2 '' "fpb report: there is no option \`--explian'$report_usage" ./fpb report --explian "$one"
    expect 2 '' "fpb report: one FILE is enough, and \`$shared' is another$report_usage" ./fpb report "$one" "$shared"
    expect 2 '' "fpb report: FILE is an empty word$report_usage" ./fpb report ""
    expect 2 '' "fpb help: there is no command \`me'/usage: fpb help \[COMMAND\]/" ./fpb help me
    for command in report route tree trial claims help; do
        expect 0 "usage: fpb $command*Status*" '' ./fpb help "$command"
        expect 0 "*  fpb $command *" '' ./fpb help
        expect 0 "usage: fpb $command*" '' ./fpb "$command" --help
        expect 0 "usage: fpb $command*" '' ./fpb "$command" -h
    done
    expect 0 '*  fpb report *' '' ./fpb --help
    expect 0 '*  fpb report *' '' ./fpb -h
}

# of a picture and a patch, either of which may be standard input, but not both
trials() {
    local card=samples/waiting-card.picture fits=samples/waiting-card.fits.patch collides=samples/waiting-card.collides.patch
    expect 0 'ports 4/clear/' '' ./fpb trial "$fits" "$card"
    expect 1 "$shared_line" '' ./fpb trial "$collides" "$card"
    expect 1 "$shared_line" '' from "$card" ./fpb trial "$collides"
    expect 1 "$shared_line" '' from "$card" ./fpb trial -- "$collides" -
    expect 1 "$shared_line" '' from "$collides" ./fpb trial - "$card"
    expect 1 "$shared_line" '' in_folder samples ../fpb trial waiting-card.collides.patch waiting-card.picture
    expect 1 "$shared_line" '' ./fpb trial <(cat "$collides") <(cat "$card")
    expect 0 'ports 4/clear/Nothing was found wrong: *./' '' ./fpb trial --explain "$fits" "$card"
    expect 1 "${shared_line}An address has two holders *./" '' from "$collides" ./fpb trial --explain - "$card"
    expect 2 '' "fpb trial: there is no option \`--explian'$trial_usage" ./fpb trial --explian "$fits" "$card"
    expect 1 'refused 30/' '' ./fpb trial /dev/null "$card"
    expect 1 'refused 30/' '' ./fpb trial /dev/zero "$card"
    expect 1 'refused 1/' '' ./fpb trial "$fits" /dev/null
    expect 2 '' "fpb trial: PATCH is missing$trial_usage" ./fpb trial
    expect 2 '' "fpb trial: PATCH is an empty word$trial_usage" ./fpb trial '' "$card"
    expect 2 '' "fpb trial: one FILE is enough, and \`$one' is another$trial_usage" ./fpb trial "$fits" "$card" "$one"
    expect 2 '' "fpb trial: picture and patch cannot both be standard input: name a FILE$trial_usage" ./fpb trial -
    expect 2 '' "fpb trial: picture and patch cannot both be standard input: name a FILE$trial_usage" ./fpb trial - -
    expect 2 '' 'fpb trial: no.patch cannot be opened: No such file or directory/' ./fpb trial no.patch "$card"
    expect 2 '' 'fpb trial: no.picture cannot be opened: No such file or directory/' ./fpb trial "$fits" no.picture
    expect 2 '' 'fpb trial: samples is a directory, and not a patch/' ./fpb trial samples "$card"
    expect 2 '' 'fpb trial: standard input is closed/' closed_input ./fpb trial - "$card"
    expect 2 '' 'fpb trial: standard input is closed/' closed_input ./fpb trial "$fits"
    expect 2 '' 'fpb trial: /proc/self/mem cannot be read/' ./fpb trial /proc/self/mem "$card"
    expect 2 '' 'fpb trial: standard output cannot be written/' full_output ./fpb trial "$fits" "$card"
}

# that the version stands in every place that has one
versions() {
    local version place
    version=$(./fpb --version)
    version=${version#fpb }
    for place in "include/fiswalend.h:#define FPB_VERSION \"$version\"" "docs/CHANGELOG.md:## $version" \
        "man/fpb.1:fpb $version" "man/fiswalend.3:fiswalend $version"; do
        if grep -qF "${place#*:}" "${place%%:*}"; then counts ""; else counts "${place%%:*} does not have \`${place#*:}'"; fi
    done
    expect 0 "fpb $version/" '' ./fpb --version
}

targets() {
    local target
    for target in 0300 300 0x0300 0X300 0300h 00000000000000000000300H 03:00.0; do
        expect 0 'end device port 2/path 0 1 2/' '' ./fpb route id host "$target" samples/switch.picture
    done
    expect 0 'end device port 3/path 2 3/' '' from samples/switch.picture ./fpb route id 02 04:00.0
    expect 1 'end unsupported port 2/path 0 1/' '' ./fpb route config host 03:01.0 samples/switch.picture
    expect 1 'end doubled ports 2 3/path 0 1/' '' ./fpb route addr host 0xE0500000 "$shared"
    expect 1 'refused 16/' '' ./fpb route id host 10000 samples/switch.picture
    expect 1 'refused 16/' '' ./fpb route id 99999999999999999999999 0300 samples/switch.picture
    expect 1 'refused 1/' '' ./fpb route id host 0300 samples/short.picture
    for target in zz 0x 0x0300h 03:20.0 03:00.8 3:0.0 0000:03:00.0 "" " 300" +300; do
        expect 2 '' "fpb route: TARGET is written as 0300, 0x0300, 0300h or 03:00.0, and not as \`$target'$route_usage" \
            ./fpb route id host "$target" samples/switch.picture
    done
    expect 2 '' "fpb route: TARGET is written as e0500000*\`03:00.0'$route_usage" ./fpb route addr host 03:00.0 "$one"
    expect 2 '' "fpb route: TARGET has 64 bits at most*$route_usage" ./fpb route addr host 10000000000000000 "$one"
    expect 2 '' "fpb route: KIND is id, addr or config, and \`mail' *$route_usage" ./fpb route mail host 0 "$one"
    expect 2 '' "fpb route: START 255 is no port: from the host is \`host'$route_usage" ./fpb route id 255 0300 "$one"
    expect 2 '' "fpb route: START is \`host' or *, and \`2x' is neither$route_usage" ./fpb route id 2x 0300 "$one"
    expect 2 '' "fpb route: KIND, START and TARGET are wanted, and 2 of the three are given$route_usage" ./fpb route id host
}

# which ports hold a target: targets, files, statuses and messages as for the walk
claims() {
    local switch=samples/switch.picture lines='port 0 by bus/port 1 by bus/port 2 by bus/' target
    for target in 0300 300 0x0300 0X300 0300h 00000000000000000000300H 03:00.0; do
        expect 0 "$lines" '' ./fpb claims id "$target" "$switch"
    done
    expect 0 "$lines" '' from "$switch" ./fpb claims id 0300
    expect 0 "$lines" '' from "$switch" ./fpb claims id 0300 -
    expect 0 "$lines" '' in_folder samples ../fpb claims id 0300 switch.picture
    expect 0 "$lines" '' ./fpb claims -- id 0300 "$switch"
    expect 0 "$lines" '' ./fpb claims id -- 0300 "$switch"
    expect 0 'port 0 by bus/port 1 by own/' '' ./fpb claims id 01:00.0 "$switch"
    expect 0 'nobody/' '' ./fpb claims id ffff "$switch"
    expect 0 'nobody/' '' ./fpb claims addr 0xFFFFFFFFffffffff "$switch"
    expect 0 'port 0 by mem/port 1 by mem/port 2 by low/port 3 by low/' '' ./fpb claims addr E0500000h "$shared"
    expect 1 'refused 16/' '' ./fpb claims id 10000 "$switch"
    expect 1 'refused 16/' '' ./fpb claims id 100000300 "$switch"
    expect 1 'refused 16/' '' ./fpb claims id ffffffffffffffff "$switch"
    expect 1 'refused 1/' '' ./fpb claims id 10000 samples/short.picture
    expect 1 'refused 1/' '' from /dev/null ./fpb claims addr 0
    expect 1 'refused 1/' '' ./fpb claims addr 0 /dev/zero
    for target in zz 0x 0x0300h 03:20.0 03:00.8 3:0.0 0000:03:00.0 "" " 300" +300; do
        expect 2 '' "fpb claims: TARGET is written as 0300, 0x0300, 0300h or 03:00.0, and not as \`$target'$claims_usage" \
            ./fpb claims id "$target" "$switch"
    done
}

wrong_claims() {
    local kind
    for kind in config ID address 0 ''; do
        expect 2 '' "fpb claims: KIND is id or addr, and \`$kind' is neither$claims_usage" ./fpb claims "$kind" 0300 "$one"
    done
    expect 2 '' "fpb claims: TARGET is written as e0500000*\`03:00.0'$claims_usage" ./fpb claims addr 03:00.0 "$one"
    expect 2 '' "fpb claims: TARGET has 64 bits at most*$claims_usage" ./fpb claims addr 10000000000000000 "$one"
    expect 2 '' "fpb claims: KIND and TARGET are wanted, and 0 of the two are given$claims_usage" ./fpb claims
    expect 2 '' "fpb claims: KIND and TARGET are wanted, and 1 of the two are given$claims_usage" ./fpb claims id
    expect 2 '' "fpb claims: there is no option \`--explain'$claims_usage" ./fpb claims --explain id 0300 "$one"
    expect 2 '' "fpb claims: there is no option \`-1'$claims_usage" ./fpb claims id -1 "$one"
    expect 2 '' "fpb claims: TARGET is written as *\`-1'$claims_usage" ./fpb claims -- id -1 "$one"
    expect 2 '' "fpb claims: one FILE is enough, and \`$shared' is another$claims_usage" ./fpb claims id 0300 "$one" "$shared"
    expect 2 '' "fpb claims: FILE is an empty word$claims_usage" ./fpb claims id 0300 ''
    expect 2 '' 'fpb claims: no.picture cannot be opened: No such file or directory/' ./fpb claims id 0300 no.picture
    expect 2 '' 'fpb claims: samples is a directory, and not a picture/' ./fpb claims id 0300 samples
    expect 2 '' 'fpb claims: standard input is closed/' closed_input ./fpb claims id 0300
    expect 2 '' 'fpb claims: /proc/self/mem cannot be read/' ./fpb claims id 0300 /proc/self/mem
    expect 2 '' 'fpb claims: standard output cannot be written/' full_output ./fpb claims id 0300 "$one"
    expect 2 '' 'fpb claims: standard output cannot be written/' closed_output ./fpb claims addr 0 samples/short.picture
}

elsewhere() {
    ln -s "$root/fpb" "$work/link"
    cp "$one" "$work/-odd name"
    expect 0 'ports 1/clear/' '' in_folder "$work" "$root/fpb" report -- "-odd name"
    expect 0 'ports 1/clear/' '' in_folder "$work" ./link report "$root/$one"
    expect 0 'ports 1/clear/' '' in_folder / "$work/link" report "$root/$one"
    expect 0 'ports 1/clear/' '' env PATH="$work:$PATH" link report "$one"
}

# the samples by words: the line of `report', and one sentence below it
explained() {
    local by='through its MEM Low vector'
    expect 1 "${shared_line}An address has two holders at one place: *port 2 (02:00.0*) $by and by port 3 (*) $by./" '' \
        ./fpb report --explain "$shared"
    expect 0 'ports 1/clear/Nothing was found wrong*./' '' ./fpb report "$one" --explain
    expect 0 '-*00:01.0-\[01\]*' '' ./fpb tree "$one"
    expect 1 'refused 1/' '' ./fpb tree samples/short.picture
}

# the examples of the man page: each command prints what stands below it, white space aside
man_examples() {
    local line asked='' below='' got
    while IFS= read -r line; do
        if [[ $line == '$ fpb '* || $line == end ]]; then
            if [ -n "$asked" ]; then
                got=$(eval "${asked/#fpb/./fpb}" | tr -s '[:space:]' ' ')
                if [ "${got% }" = "${below# }" ]; then counts ""; else counts "fpb.1: $asked prints $got and not$below"; fi
            fi
            asked=${line#??} below=''
        else
            below="$below $(tr -s '[:space:]' ' ' <<<"$line" | sed 's/^ //; s/ $//')"
        fi
    done < <(sed -n '/^\.EX/,/^\.EE/{ /^\./d; s/\\f[BP]//g; s/\\-/-/g; s/\\e/\\/g; p }' man/fpb.1 | sed '/^if fpb/,$d'; echo end)
}

# fresh SECONDS: a copy of the checkout that is not built, and a stand-in for rt that takes so long and notes its calls
fresh() {
    rm -rf "$work/copy" "$work/kit"
    mkdir -p "$work/copy" "$work/kit/bin"
    tar -c --exclude='crates/*/out' fpb front tools crates.txt crates | tar -x -C "$work/copy"
    cat >"$work/kit/bin/rt" <<RT
#!/bin/sh
name=\$(basename "\$PWD")
echo "\$name \$*" >>"$work/kit/calls"
echo "rt: chose --jobs 2 for ids"
echo "fn ids::device: proved"
echo "crate ids: modules loaded=0 checked=1"
echo "logic=proved functions=1"
echo "rt: chose --jobs 2 for \$name" >&2
sleep "$1" &
echo \$! >"$work/kit/child"
wait
[ ! -e "$work/kit/refuses" ] || { echo "rt: the library ids did not build, so nothing above it was checked"; exit 1; }
echo "crate \$name: modules loaded=1 checked=1"
echo "logic=proved functions=1" >&2
mkdir -p out
cp "$root/$built/\$name" out/
echo "rt: running out/\$name; to give it other input, run that file yourself" >&2
exit 1
RT
    chmod +x "$work/kit/bin/rt"
    : >"$work/kit/calls"
}

# copy ARGS..: fpb of that copy, with the stand-in; without_rt: with nothing on the PATH but what Debian has, and no rt
copy() { PATH=$work/kit/bin:$PATH RATTLE_HOME=$kit "$work/copy/fpb" "$@"; }
without_rt() { env PATH="$work/debian" "$@"; }

# calls N: that rt was called so often since the copy was made
calls() {
    local n
    n=$(wc -l <"$work/kit/calls")
    if [ "$n" -eq "$1" ]; then counts ""; else counts "rt was called $n times and not $1"; fi
}

first_run() {
    local not_built='fpb report: report is not built yet from these sources: proving it and what it rests on, [0-9]* crates; *minutes*/'
    local count
    count=$(cd "$root" && . tools/build.sh && needed_by report | wc -l)
    fresh 0
    expect 2 '' 'fpb report: report is not built yet from these sources, and rt, * is not on the PATH/' without_rt "$work/copy/fpb" report "$one"
    expect 2 '' 'fpb report: report is not built yet from these sources, and the Rattle kit is not where rt is, in */kit: RATTLE_HOME *' \
        env PATH="$work/kit/bin:$PATH" "$work/copy/fpb" report "$one"
    expect 2 '' 'fpb report: nothing.picture cannot be opened: No such file or directory/' copy report nothing.picture
    calls 0
    expect 0 'ports 1/clear/' "${not_built}fpb report: 1 of $count proved: ids/fpb report: $count of $count proved: report/" copy report "$one"
    calls 1
    expect 0 'ports 1/clear/' '' copy report "$one"
    expect 0 'ports 1/clear/' '' without_rt "$work/copy/fpb" report "$one"
    calls 1
    echo >>"$work/copy/crates/ids/src/lib.rt"
    expect 0 'ports 1/clear/' "$not_built*" copy report "$one"
    calls 2
    rm -r "$work/copy/target/fpb/x86-64"
    expect 0 'ports 1/clear/' "$not_built*" copy report "$one"
    calls 3
    touch "$work/kit/refuses"
    echo >>"$work/copy/crates.txt"
    expect 2 '' "$not_built*fpb report: report is not built: rt ended with status 1; *rt: the library ids did not build*" copy report "$one"
    expect 2 '' "$not_built*" copy report "$one"
}

read_only() {
    fresh 0
    cp "$one" "$work/one.picture"
    [ "$(id -u)" -eq 0 ] || chmod -R a-w "$work/copy"
    expect 2 '' 'fpb tree: tree is not built yet from these sources, and nothing can be written to *: build it in a copy *' \
        as_nobody copy/fpb tree one.picture
    chmod -R u+w "$work/copy"
    copy report "$one" >/dev/null 2>&1
    [ "$(id -u)" -eq 0 ] || chmod -R a-w "$work/copy"
    expect 0 'ports 1/clear/' '' as_nobody copy/fpb report one.picture
    chmod -R u+w "$work/copy"
    chmod 0 "$work/one.picture"
    expect 2 '' 'fpb report: one.picture cannot be opened: Permission denied/' as_nobody copy/fpb report one.picture
    calls 1
}

# wait_for FILE: until there is something in it, at most a minute
wait_for() {
    local try
    for ((try = 0; try < 600; try++)); do
        [ ! -s "$1" ] || return 0
        sleep 0.1
    done
}

two_at_once() {
    local count
    count=$(cd "$root" && . tools/build.sh && needed_by report | wc -l)
    fresh 12
    copy report "$one" >"$work/first" 2>&1 &
    wait_for "$work/kit/calls"
    expect 0 'ports 1/clear/' 'fpb report: another build runs in this checkout; waiting for it to end/' copy report "$one"
    wait $!
    expect 0 "*/fpb report: $((count - 1)) of $count proved, being proved: report/*/ports 1/clear/" '' cat "$work/first"
    calls 1
}

# that a build ends when nobody reads what it says, and goes on where the terminal stops jobs that write to it
listened() {
    fresh 600
    {
        timeout 60 env PATH="$work/kit/bin:$PATH" RATTLE_HOME="$kit" "$work/copy/fpb" report "$one" 2>&1 >/dev/null
        echo $? >"$work/status"
    } | head -n 1 >/dev/null
    counts "$([ "$(cat "$work/status")" -ne 124 ] || echo "a build goes on though nobody listens")"
    command -v script >/dev/null || return
    fresh 0
    expect 0 '*proved: report*clear*' '' timeout 60 env PATH="$work/kit/bin:$PATH" RATTLE_HOME="$kit" \
        script -qec "stty tostop; '$work/copy/fpb' report $one" /dev/null
}

# ended_by SIGNAL: begins a first run, sends the signal to fpb alone once rt runs, and gives fpb's status; a signal of the
# keyboard is ignored by what a script starts in the background, unless it is a job
ended_by() {
    local pid
    fresh 600
    rm -rf "$work/temporary"
    mkdir "$work/temporary"
    set -m
    env PATH="$work/kit/bin:$PATH" RATTLE_HOME="$kit" TMPDIR="$work/temporary" "$work/copy/fpb" report "$one" &
    pid=$!
    set +m
    wait_for "$work/kit/child"
    kill -s "$1" "$pid"
    status_of "$pid"
}

# that whatever rt has started ends with fpb, however fpb is ended, and that the next call builds anew
ended() {
    local signal try
    for signal in INT TERM HUP KILL; do
        expect $((128 + $(kill -l "$signal"))) '' 'fpb report: *fpb report: 1 of [0-9]* proved: ids/' ended_by "$signal"
        for ((try = 0; try < 50; try++)); do
            lives "$(cat "$work/kit/child")" || [ -n "$(ls "$work/temporary")" ] || break
            sleep 0.1
        done
        if [ "$try" -lt 50 ]; then counts ""; else counts "what rt started, or its files, stay after fpb was ended by $signal"; fi
    done
    expect 2 '' 'fpb report: *fpb report: 1 of [0-9]* proved: ids/' ended_by QUIT
    sed -i 's/^sleep .*/sleep 0 \&/' "$work/kit/bin/rt"
    expect 0 'ports 1/clear/' '*proved: report/' copy report "$one"
}

# children PID..: the processes that these have started; lives PID: whether a process still runs
children() { awk -v parents=" $* " 'index(parents, " " $4 " ") && $3 != "Z" { printf "%s ", $1 }' /proc/[0-9]*/stat 2>/dev/null; }
lives() { [[ $(awk '{ print $3 }' "/proc/$1/stat" 2>/dev/null) == [!Z] ]]; }

# status_of PID: waits for a process of this shell, ends it after 20 seconds, and gives its status
status_of() {
    local try
    for ((try = 0; try < 200; try++)); do
        lives "$1" || break
        sleep 0.1
    done
    [ "$try" -lt 200 ] || kill -KILL -- "-$1"
    wait "$1"
} 2>/dev/null

# parts_of PID: what fpb has started, in `left`, once it waits for a picture: two processes, and one each of these, of which one is head
parts_of() {
    local try first
    for ((try = 0; try < 300; try++)); do
        first=$(children "$1")
        read -ra left <<<"$first $(children "$first")"
        [ ${#left[@]} -ne 4 ] || ! in_folder /proc grep -qsx head "${left[@]/%//comm}" || break
        sleep 0.1
    done
}

# waiting STATUS SIGNAL [-]: that what waits for the picture ends with fpb, too; the signal goes to fpb alone or, with -, to its
# process group, as from the keyboard
waiting() {
    local pid left status
    rm -f "$work/fifo"
    mkfifo "$work/fifo"
    exec 8<>"$work/fifo"
    set -m
    ./fpb report "$work/fifo" >/dev/null 2>&1 8<&- &
    pid=$!
    set +m
    parts_of "$pid"
    kill -s "$2" -- "${3:-}$pid"
    status_of "$pid"
    status=$?
    counts "$([ "$status" -eq "$1" ] || echo "fpb ended by $2 has the status $status")"
    sleep 0.5
    counts "$([ ${#left[@]} -eq 4 ] || echo "fpb has started ${#left[@]} processes where it waits for a picture, and not 4")"
    counts "$(for pid in "${left[@]}"; do lives "$pid" && echo "process $pid goes on after fpb was ended by $2"; done)"
    exec 8<&-
}

# looking STATUS SIGNAL: that a signal of the keyboard ends fpb while it looks whether its program is built, by a stand-in for sha256sum
looking() {
    local pid status
    rm -rf "$work/slow"
    mkdir "$work/slow"
    printf '#!/bin/sh\necho >"%s"\nexec sleep 600\n' "$work/slow/began" >"$work/slow/sha256sum"
    chmod +x "$work/slow/sha256sum"
    set -m
    PATH=$work/slow:$PATH ./fpb report "$one" >"$work/out" 2>&1 &
    pid=$!
    set +m
    wait_for "$work/slow/began"
    kill -s "$2" -- "-$pid"
    status_of "$pid"
    status=$?
    counts "$([ "$status" -eq "$1" ] && [ ! -s "$work/out" ] || echo "fpb ended by $2 early: $status, $(cat "$work/out")")"
}

# half_answers FPB EMULATOR: that only a whole answer has the status 0, by a stand-in for what runs the programs
half_answers() {
    local line
    for line in 'ports 1' 'ports 1\nclea' 'ports 1\nclearly' ' clear' 'end' 'port 1' 'port 1 by' 'nobod' 'nobody\nport 1' ''; do
        rm -f "$2"
        printf '#!/bin/sh\ncat >/dev/null\nprintf "%s"\n' "$line" >"$2"
        chmod +x "$2"
        expect 2 '' 'fpb report: the program report did not answer/' "$1" report "$one"
        expect 2 '' 'fpb report: the program explain did not answer/' "$1" report --explain "$one"
        expect 2 '' 'fpb route: the program route did not answer/' "$1" route id host 0300 "$one"
        expect 2 '' 'fpb claims: the program claimed did not answer/' "$1" claims id 0300 "$one"
        expect 2 '' 'fpb tree: the program tree did not answer/' "$1" tree "$one"
        expect 2 '' 'fpb trial: the program trial did not answer/' "$1" trial samples/waiting-card.fits.patch "$one"
        expect 2 '' 'fpb trial: the program explain did not answer/' "$1" trial --explain samples/waiting-card.fits.patch "$one"
    done
    rm "$2"
}

# broken_answers FPB EMULATOR: that a program which does not end well has not answered, whatever it has printed
broken_answers() {
    local end
    # shellcheck disable=SC2016 # the stand-in's own process
    for end in 'exit 3' 'kill -KILL $$'; do
        printf '#!/bin/sh\ncat >/dev/null\nprintf "ports 1\\nclear\\n"\n%s\n' "$end" >"$2"
        chmod +x "$2"
        expect 2 '' '*fpb report: the program report did not answer/' "$1" report "$one"
        expect 2 '' '*fpb trial: the program trial did not answer/' "$1" trial samples/waiting-card.fits.patch "$one"
        rm "$2"
    done
}

installed() {
    local bin page
    expect 0 'install.sh PREFIX: *' '' tools/install.sh --help
    expect 2 '' 'install.sh: one PREFIX is wanted*' tools/install.sh
    expect 2 '' 'install.sh: one PREFIX is wanted*' tools/install.sh --prefix
    expect 2 '' 'install.sh: with DESTDIR, PREFIX must begin with /, *' env DESTDIR="$work/stage" tools/install.sh usr
    expect 2 '' 'install.sh: nothing can be written to /proc/fpb/' tools/install.sh /proc/fpb
    mkdir "$work/odd"
    : >"$work/odd/bin"
    expect 2 '' "*install.sh: $work/odd/bin/fpb cannot be written; *" tools/install.sh "$work/odd"
    expect 0 "install.sh: fpb * is installed below $work/relative/usr/" '*' in_folder "$work" env DESTDIR=relative "$root/tools/install.sh" /usr
    expect 0 'ports 1/clear/' '' "$work/relative/usr/bin/fpb" report "$one"
    expect 0 "install.sh: fpb * is installed below $work/stage/usr/" '*' env DESTDIR="$work/stage" tools/install.sh /usr
    mv "$work/stage/usr" "$work/stage/moved"
    bin=$work/stage/moved/bin/fpb
    ln -sf "$bin" "$work/installed"
    expect 0 'ports 1/clear/' '' without_rt "$bin" report "$one"
    expect 1 "$shared_line*./" '' without_rt "$bin" report --explain "$shared"
    expect 0 'end device port 2/path 0 1 2/' '' without_rt "$work/installed" route id host 03:00.0 samples/switch.picture
    expect 0 'port 0 by bus/port 1 by bus/port 2 by bus/' '' without_rt "$work/installed" claims id 03:00.0 samples/switch.picture
    expect 0 '-*' '' in_folder / "$work/installed" tree "$root/$one"
    expect 0 'ports 4/clear/' '' in_folder samples without_rt "$bin" trial waiting-card.fits.patch waiting-card.picture
    expect 0 '*fpb report*' '' without_rt "$bin" help
    expect 0 "$(./fpb --version)/" '' without_rt "$bin" --version
    expect 0 "$(./fpb --version | sed 's/fpb/Version:/')/" '' grep '^Version: ' "$work/stage/moved/lib/pkgconfig/fiswalend.pc"
    if command -v pkg-config >/dev/null; then
        expect 0 "-I*/moved/lib/pkgconfig/../../include -L*/moved/lib/pkgconfig/../../lib -lfiswalend*" '' \
            env PKG_CONFIG_PATH="$work/stage/moved/lib/pkgconfig" pkg-config --cflags --libs fiswalend
    fi
    for page in man1/fpb.1 man3/fiswalend.3; do expect 0 '.TH *' '' grep -m 1 '^\.TH ' "$work/stage/moved/share/man/$page"; done
    half_answers "$bin" "$work/stage/moved/libexec/fiswalend/x86-64/qemu-x86_64"
    broken_answers "$bin" "$work/stage/moved/libexec/fiswalend/x86-64/qemu-x86_64"
    echo nonsense >"$work/stage/moved/libexec/fiswalend/tree"
    expect 2 '' '*fpb tree: the program tree did not answer/' "$bin" tree "$one"
    rm "$work/stage/moved/libexec/fiswalend/tree"
    expect 2 '' 'fpb tree: the program tree is missing beside this command: install it again/' "$bin" tree "$one"
    rm -r "$work/stage/moved/libexec"
    expect 2 '' "fpb: what it runs is missing in *libexec/fiswalend: install it again/" "$bin" tree "$one"
}

kit=$(kit_home)
mkdir "$work/debian"
for tool in awk basename bash cat cp cut dirname env find flock head mkdir mv readlink rm sed sha256sum sleep sort tail tr uname wc xargs; do
    ln -s "$(command -v "$tool")" "$work/debian/"
done
input_and_output
usage
versions
targets
claims
wrong_claims
trials
elsewhere
explained
man_examples
first_run
read_only
two_at_once
listened
ended
waiting 143 TERM
waiting 130 INT
waiting 130 INT -
waiting 129 HUP -
waiting 2 QUIT
waiting 2 QUIT -
looking 130 INT
looking 2 QUIT
installed
echo "$passed passed, $failed failed"
[ "$failed" -eq 0 ]
