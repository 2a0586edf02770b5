# shellcheck shell=bash disable=SC2154
# fpb tree [FILE]
# Draws the chassis of a picture as `lspci -t' draws one, whether or not it passes the check: one line for each port, with its own
# ID, its bus pair, its number and kind, and the windows and vectors in use. A picture that does not read is refused as in `report'.
#
#   00:01.0-[01-04]            own ID, and the buses of the pair that it claims; [] where the pair claims none
#   device port, ARI, redirect a device is below it; ARI Forwarding Enable and, in edition 2, P2P Request Redirect are set
#   memory e0000000-efffffff   a window; `memory space off' where Memory Space Enable is not set
#   video 000a0000-000bffff    the video range, where VGA Enable is set
#   MEM Low vector 2 of 256 set, from e0000000 by 1 MiB
#
# Without FILE, or with `-', the picture is read from standard input.
# Status: 0 drawn; 1 refused; 2 bad usage, or no answer: standard error says why.

# asks: tree
run() {
    options "" "$@"
    take_file ${words[@]+"${words[@]}"}
    ask tree
    case $answer in
    -*) answered 0 ;;
    'refused '*) answered 1 ;;
    *) no_answer tree ;;
    esac
}
