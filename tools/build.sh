# shellcheck shell=bash disable=SC2154
# Sourced: proves and compiles what is not built yet, one build at a time, and says on standard error how far it is.
# The caller stands in the root of the checkout and has named itself in `self`, which begins each message.
# shellcheck source=tools/kit.sh
. tools/kit.sh

# Where built programs and archives stand, each beside the fingerprint of the sources that it is made from.
built=target/fpb

# How long it takes to prove all that a program needs, from nothing.
build_time="about 10 minutes on two cores, more on a slow machine"

# fingerprint: one word for the sources as they are now, whatever their dates and whatever rt has made of them
fingerprint() {
    find crates crates.txt -regex 'crates/[^/]*/out' -prune -o -type f -print0 | LC_ALL=C sort -z | xargs -0 sha256sum | sha256sum
}

# is_built NAME FINGERPRINT: whether it is made from these sources
is_built() {
    [ -f "$built/$1" ] && has_loader "$built/x86-64" && [ -f "$built/$1.made-from" ] && [ "$(cat "$built/$1.made-from")" = "$2" ]
}

# needed_by CRATE: the crates of this repository that are proved for it, in the order in which rt proves them, itself the last
needed_by() {
    awk -F: -v name="$1" '
        !/^#/ && NF { split($1, words, " "); uses[words[1]] = $2 }
        function visit(crate, words, n, i) {
            if (crate in seen || !(crate in uses)) return
            seen[crate] = 1
            n = split(uses[crate], words, " ")
            for (i = 1; i <= n; i++) visit(words[i])
            print crate
        }
        END { visit(name) }' crates.txt
}

# ends_with PID GROUP FOLDER: ends the process group and removes the folder once the process is gone, however it went
ends_with() {
    trap '' TERM
    while kill -0 "$1"; do sleep 1; done
    kill -TERM -- "-$2"
    sleep 1
    rm -rf "$3"
}

# attended COMMAND..: runs it in a process group and with a temporary folder of its own, which both end when this shell does, and
# gives its status; it may write to a terminal of which this shell is in the foreground. The caller's traps are as before, afterwards.
attended() {
    local folder group status signal traps
    traps=$(trap -p INT TERM HUP QUIT)
    folder=$(mktemp -d) && chmod 711 "$folder" || return 1
    set -m
    (
        group=$BASHPID
        ends_with $$ "$group" "$folder" >/dev/null 2>&1 9<&- &
        trap '' TTOU
        TMPDIR=$folder "$@" </dev/null
        status=$?
        kill -KILL $!
        exit "$status"
    ) &
    group=$!
    set +m
    for signal in INT TERM HUP QUIT; do
        # shellcheck disable=SC2064 # the group and the folder are known now
        trap "trap - $signal; kill -TERM -- -$group; wait $group; rm -rf '$folder'; kill -$signal \$\$; exit 2" "$signal"
    done
    wait "$group"
    status=$?
    trap - INT TERM HUP QUIT
    eval "$traps"
    rm -rf "$folder"
    return "$status"
}

# tell WORDS: says how far a build is; ends the build where nobody listens any more
tell() {
    echo "$self: $1" >&2 || kill -TERM 0
}

# progress CRATE..: passes on what rt prints as it proves these, one after another; says on standard error which one is proved, n of
# them, and every 10 seconds without such news what is being proved. rt says nothing of one that has not changed: it counts as
# proved once a later one is under way.
progress() {
    local count=$# n=0 line part='' name='' under_way=''
    local -A place=()
    for name; do n=$((n + 1)) place[$name]=$n; done
    n=0 name=''
    trap '' PIPE
    while :; do
        if IFS= read -r -t 10 line; then
            line=$part$line part=''
            printf '%s\n' "$line"
            if [[ $line =~ ^rt:\ chose\ --jobs\ [0-9]+\ for\ ([a-z_0-9]+)$ || $line =~ ^(fn|impl|struct|enum)\ ([a-z_0-9]+):: ]]; then
                under_way=${BASH_REMATCH[-1]}
                if [ -n "${place[$under_way]-}" ]; then n=$((place[$under_way] - 1)); fi
            elif [[ $line =~ ^crate\ ([a-z_0-9]+):\  ]]; then
                name=${BASH_REMATCH[1]}
            elif [[ $line == 'logic=proved '* && -n ${place[$name]-} ]]; then
                n=${place[$name]} under_way=''
                tell "$n of $count proved: $name"
            fi
        elif [ $? -gt 128 ]; then
            part=$part$line
            tell "$n of $count proved${under_way:+, being proved: $under_way}"
        else
            return 0
        fi
    done
}

# has_rt VERB CRATE: has rt run a program or make a library, which it proves first with what it rests on; with progress, and keeps
# what rt prints. A program has standard input at its end and no arguments; how it ends says nothing, but that rt ran it does.
has_rt() {
    local needed status
    read -ra needed <<<"$(needed_by "$2" | tr '\n' ' ')"
    (cd "crates/$2" && rt "$1" 2>&1) | progress "${needed[@]}" >"$built/log"
    status=${PIPESTATUS[0]}
    if [ "$1" = run ]; then
        if grep -q "^rt: running out/$2;" "$built/log"; then status=0; elif [ "$status" -eq 0 ]; then status=1; fi
    fi
    return "$status"
}

# one_at_a_time: waits until no other build runs in this checkout, and keeps others from it until descriptor 9 is closed
one_at_a_time() {
    exec 9<.
    flock -n 9
    case $? in
    0) ;;
    1)
        echo "$self: another build runs in this checkout; waiting for it to end" >&2
        attended flock 9
        ;;
    *)
        echo "$self: flock, of util-linux, does not lock this checkout for a build" >&2
        return 1
        ;;
    esac
}

# can_build WHAT: whether the kit and a folder to write to are there; says what is missing
can_build() {
    local missing=''
    if ! command -v rt >/dev/null; then
        missing="rt, the command of the Rattle kit that builds it, is not on the PATH"
    elif ! has_loader "$(kit_tools)/lib"; then
        missing="the Rattle kit is not where rt is, in $(kit_home): RATTLE_HOME can name its folder"
    elif ! mkdir -p "$built" 2>/dev/null || ! [ -w "$built" ]; then
        missing="nothing can be written to $PWD: build it in a copy that can be"
    fi
    [ -n "$missing" ] || return 0
    echo "$self: $1 is not built yet from these sources, and $missing" >&2
    return 1
}

# rt_failed WHAT STATUS: says that rt has not made it, and what it said last
rt_failed() {
    echo "$self: $1 is not built: rt ended with status $2; $PWD/$built/log has all that it said, last:" >&2
    tail -n 5 "$built/log" >&2
}

# crate_of PROGRAM|ARCHIVE.a: the crate that it is made of; an archive is that of a static library, NAME_c where NAME is a library
crate_of() {
    local name=${1%.a}
    if [ "$1" != "$name" ] && [ -d "crates/${name}_c" ]; then name=${name}_c; fi
    printf '%s\n' "$name"
}

# make_one PROGRAM|ARCHIVE.a: has rt prove and compile it, and puts it where built things stand
make_one() {
    local crate verb=run from
    crate=$(crate_of "$1")
    from=crates/$crate/out/$crate
    [ "$1" = "${1%.a}" ] || verb=lib from=crates/$crate/out/lib$crate.a
    echo "$self: $1 is not built yet from these sources: proving it and what it rests on, $(needed_by "$crate" | wc -l) crates;" \
        "if none is proved yet, this takes $build_time" >&2
    attended has_rt "$verb" "$crate" || { rt_failed "$1" $?; return 1; }
    lay_built "$from" "$1"
}

# lay_built FROM PROGRAM|ARCHIVE.a: puts what is proved and compiled where built things stand
lay_built() {
    if ! put "$1" "$built/$2" || ! lay_loader "$built/x86-64"; then
        echo "$self: $2 is proved, but cannot be put into $PWD/$built" >&2
        return 1
    fi
}

# take_programs FINGERPRINT: after an \`rt ci' that passed over the sources of this fingerprint, takes the programs that it has left
take_programs() {
    local file program
    mkdir -p "$built" || return 1
    for file in crates/*/src/main.rt; do
        program=${file#crates/} program=${program%%/*}
        if [ -x "crates/$program/out/$program" ]; then
            rm -f "$built/$program.made-from"
            lay_built "crates/$program/out/$program" "$program" && printf '%s\n' "$1" >"$built/$program.made-from" || return 1
        fi
    done
}

# build PROGRAM|ARCHIVE.a: has it built from the sources as they are now; asks rt only where they have changed
build() {
    local now status=0
    now=$(fingerprint)
    is_built "$1" "$now" && return
    can_build "$1" || return 1
    one_at_a_time || return 1
    now=$(fingerprint)
    if ! is_built "$1" "$now"; then
        rm -f "$built/$1.made-from"
        make_one "$1" && printf '%s\n' "$now" >"$built/$1.made-from" || status=1
    fi
    exec 9<&-
    return "$status"
}

# run_built PROGRAM ARGS..: runs a program that is built
run_built() {
    local program=$1
    shift
    run_x86 "$built/$program" "$@"
}
