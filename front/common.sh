# shellcheck shell=bash disable=SC2154
# Sourced by fpb: what its commands share. A command's file begins with its usage and its help as comments, says which programs it
# asks, for the installation, and has a function `run`, which is handed the command's arguments and ends by a status.
self=fpb

# say WORDS: a message on standard error
say() {
    echo "$self: $1" >&2
}

# is_command WORD: whether there is such a command
is_command() {
    [[ $1 =~ ^[a-z]+$ ]] && [ "$1" != common ] && [ -f "$front/$1.sh" ]
}

# usage_of COMMAND: its usage, which is the second line of its file; help_of COMMAND: the comment below that
usage_of() {
    sed -n '2s/^# //p' "$front/$1.sh"
}
help_of() {
    sed -n '3,${ /^#/!q; s/^# \{0,1\}//p }' "$front/$1.sh"
}

# help_on COMMAND: its usage and help, on standard output
help_on() {
    give "usage: $(usage_of "$1")"$'\n\n'"$(help_of "$1")"
    exit 0
}

# bad_usage WORDS: says what is wrong and how it is right, and ends
bad_usage() {
    say "$1"
    if [ "$self" = fpb ]; then
        echo "usage: fpb COMMAND ..; \`fpb help' lists the commands" >&2
    else
        echo "usage: $(usage_of "${self#fpb }")" >&2
    fi
    exit 2
}

# give TEXT: prints it; an output that cannot be written ends the command
give() {
    printf '%s\n' "$1" 2>/dev/null || { say "standard output cannot be written"; exit 2; }
}

# options KNOWN WORDS..: sorts a command's words into `words` and, for the options in KNOWN, `chosen`; `--` ends the options
chosen='' words=()
options() {
    local known=$1 word
    shift
    while [ $# -gt 0 ]; do
        word=$1
        shift
        case $word in
        --) words+=("$@") && return ;;
        -h | --help) help_on "${self#fpb }" ;;
        -?*)
            case " $known " in *" $word "*) ;; *) bad_usage "there is no option \`$word'" ;; esac
            chosen="$chosen $word "
            ;;
        *) words+=("$word") ;;
        esac
    done
}

# target_of KIND WORD: a target's hexadecimal digits, in `target'; KIND addr is an address, any other an ID
target_of() {
    local forms="0300, 0x0300, 0300h or 03:00.0"
    [ "$1" != addr ] || forms="e0500000, 0xe0500000 or e0500000h"
    if [ "$1" != addr ] && [[ $2 =~ ^([0-9a-fA-F]{2}):([01][0-9a-fA-F])\.([0-7])$ ]]; then
        printf -v target %x $((16#${BASH_REMATCH[1]} * 256 + 16#${BASH_REMATCH[2]} * 8 + BASH_REMATCH[3]))
        return
    fi
    [[ $2 =~ ^0[xX]0*([0-9a-fA-F]+)$ || $2 =~ ^0*([0-9a-fA-F]+)[hH]?$ ]] || bad_usage "TARGET is written as $forms, and not as \`$2'"
    target=${BASH_REMATCH[1]}
    [ ${#target} -le 16 ] || bad_usage "TARGET has 64 bits at most, and \`$2' has more"
}

# take_file WORD..: the picture is read from the file named, or from standard input
take_file() {
    [ $# -le 1 ] || bad_usage "one FILE is enough, and \`$2' is another"
    input=${1--}
    input_name=$input
    [ -n "$input" ] || bad_usage "FILE is an empty word"
    if [ "$input" = - ]; then
        input=/dev/fd/0 input_name="standard input"
        [ -e "$input" ] || unreadable "is closed"
        [ ! -t 0 ] || say "reading a picture from the terminal"
        exec 3<&0
    else
        { exec 3<"$input"; } 2>/dev/null || unreadable "cannot be opened: $(why_not "$input")"
    fi
    [ ! -d "$input" ] || unreadable "is a directory, and not a picture"
}
unreadable() {
    say "$input_name $1"
    exit 2
}

# why_not FILE: the system's reason why it cannot be opened
why_not() {
    local message
    message=$({ exec 3<"$1"; } 2>&1)
    echo "${message##*: }"
}

# has_program NAME: in a checkout, has it built; says why it is not there
has_program() {
    if [ -n "$checkout" ]; then
        cd "$checkout" || exit 2
        # shellcheck source=tools/build.sh
        . tools/build.sh
        build "$1" 3<&- || exit 2
    elif [ ! -f "$programs/$1" ]; then
        say "the program $1 is missing beside this command: install it again"
        exit 2
    fi
}

# become NAME ARGS..: this shell becomes an x86-64 program by its own loader, where there is an emulator under that
become() {
    local base=$programs/x86-64 emulator=$programs/x86-64/qemu-x86_64 name=$1
    shift
    [ -x "$emulator" ] || emulator=
    exec ${emulator:+"$emulator"} "$base/ld-linux-x86-64.so.2" --library-path "$base" "$programs/$name" "$@"
}

# ask NAME ARGS..: has the program built, and consults it
ask() {
    ready "$1"
    consult "$@"
}

# end_by SIGNAL: ends the parts of a command, `helpers` and the one begun last, and then this shell by the signal; by status 2 where bash
# ignores it
helpers=()
end_by() {
    trap - "$1"
    kill ${helpers[@]+"${helpers[@]}"} "${!-}" 2>/dev/null
    kill -s "$1" $$
    exit 2
}

# ready NAME: has the program built, and opens descriptor 8, on which the parts of a command tell how they ended, each by a word:
# bash can lose the status of a process substitution where there are several, one in a thousand. From now on parts end with this shell.
told=''
ready() {
    local signal
    has_program "$1"
    exec 8<> <(:)
    # shellcheck disable=SC2064 # the signal is known now
    for signal in INT TERM HUP; do trap "end_by $signal" "$signal"; done
}

# alongside COMMAND..: runs it on this process's standard input, gives its status, and ends it where this process is ended
alongside() {
    trap 'kill "${!-}" 2>/dev/null; exit 1' INT TERM HUP QUIT
    "$@" <&0 &
    wait $!
}

# read_part WORD BYTES: prints as many bytes of standard input, or as there are; tells WORD if it cannot be read. 141 is no failure:
# nobody wants the rest.
read_part() {
    local status=0
    alongside head -c "$2" 2>/dev/null || status=$?
    case $status in 0 | 141) ;; *) echo "$1" >&8 ;; esac
}

# hear: all that comes on descriptor 5, in `answer`; a second at a time, since bash does not see a signal that comes just before it
# waits until it has waited
hear() {
    local part status=129
    answer=''
    while [ "$status" -gt 128 ]; do
        IFS= read -r -d '' -t 1 part <&5
        status=$?
        answer=$answer$part
    done
    answer=${answer%$'\n'}
}

# consult NAME ARGS..: what the program says of the picture, in `answer`, and what the parts told, in `told`; one byte more than a
# picture may have is read. Only a program that ended well has answered.
consult() {
    exec 4< <(read_part picture 65537 <&3)
    helpers+=($!)
    exec 5< <(alongside become "$@" <&4 3<&- 4<&- && echo answered >&8)
    helpers+=($!)
    exec 3<&- 4<&-
    hear
    trap - INT TERM HUP
    echo . >&8
    IFS= read -r -d . told <&8
    [[ $told == *answered* ]] || no_answer "$1"
    [[ $told != *picture* ]] || unreadable "cannot be read"
}

# no_answer NAME: ends the command where its program has not said what it must
no_answer() {
    say "the program $1 did not answer"
    exit 2
}

# answered STATUS: prints the answer and ends with the status
answered() {
    give "$answer"
    exit "$1"
}
