# shellcheck shell=bash disable=SC2154
# fpb route KIND START TARGET [FILE]
# Where one packet goes: its end, and on a second line `path' with the numbers of the ports that it crosses, in order.
#
#   KIND    id or addr, a packet routed by ID or by address, or config, a configuration request
#   START   `host', or the number of a device port whose device sends the packet
#   TARGET  hexadecimal, as 0300, 0x0300 or 0300h; an ID also as bus, device and Function, 03:00.0
#
# Ends: `end device port 5', `end function port 3' (the port itself), `end host', `end unsupported port 4', `end doubled ports 2 9'.
# Redirect: a packet to an address, sent below a port that has P2P Request Redirect set (in edition 2) and does not claim the address,
# first crosses every port up to the root: `path 3 1 0 0 1 2'.
# Without FILE, or with `-', the picture is read from standard input.
# Status: 0 an end reached; 1 refused, Unsupported Request or doubled; 2 bad usage, or no answer: standard error says why.

# start_of WORD: the start as the program takes it, in `start'
start_of() {
    start=$1
    [ "$1" != host ] || return
    [[ $1 =~ ^0*([0-9]+)$ ]] || bad_usage "START is \`host' or a device port's number, and \`$1' is neither"
    start=${BASH_REMATCH[1]}
    [ "$start" != 255 ] || bad_usage "START 255 is no port: from the host is \`host'"
    # no picture has a port of so many digits
    [ ${#start} -le 9 ] || start=999999999
}

# asks: route
run() {
    options "" "$@"
    set -- ${words[@]+"${words[@]}"}
    [ $# -ge 3 ] || bad_usage "KIND, START and TARGET are wanted, and $# of the three are given"
    case $1 in
    id | addr | config) ;;
    *) bad_usage "KIND is id, addr or config, and \`$1' is none of them" ;;
    esac
    start_of "$2"
    target_of "$1" "$3"
    take_file "${@:4}"
    ask route "$1" "$start" "$target"
    case $answer in
    'end unsupported '* | 'end doubled '* | 'refused '*) answered 1 ;;
    'end host'* | 'end device '* | 'end function '*) answered 0 ;;
    *) no_answer route ;;
    esac
}
