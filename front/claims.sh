# shellcheck shell=bash disable=SC2154
# fpb claims KIND TARGET [FILE]
# Which ports hold a target, and by which decoders: a line for each, in port order, as `port 2 by bus' or `port 3 by own rid', or
# `nobody'. The picture must read; it need not pass the check.
#
#   KIND    id or addr: what the target is, an ID or an address
#   TARGET  hexadecimal, as 0300, 0x0300 or 0300h; an ID also as bus, device and Function, 03:00.0
#
# Behind `by', of an ID: `own', the port's own ID, which is no claim; `bus', its bus pair; `rid', its RID vector. Of an address:
# `mem', Memory Base and Limit; `pref', Prefetchable Base and Limit; `low' and `high', the vectors below 4 GiB and from there on;
# `vga', VGA Enable, for the video range A0000h to BFFFFh.
# A picture that does not read is refused as in `report', and an ID over FFFFh by 16.
# Without FILE, or with `-', the picture is read from standard input.
# Status: 0 ports or nobody; 1 refused; 2 bad usage, or no answer: standard error says why.

# asks: claimed
run() {
    options "" "$@"
    set -- ${words[@]+"${words[@]}"}
    [ $# -ge 2 ] || bad_usage "KIND and TARGET are wanted, and $# of the two are given"
    case $1 in
    id | addr) ;;
    *) bad_usage "KIND is id or addr, and \`$1' is neither" ;;
    esac
    target_of "$1" "$2"
    take_file "${@:3}"
    ask claimed "$1" "$target"
    case $answer in
    'port '*' by '* | nobody) answered 0 ;;
    'refused '*) answered 1 ;;
    *) no_answer claimed ;;
    esac
}
