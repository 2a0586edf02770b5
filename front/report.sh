# shellcheck shell=bash disable=SC2154
# fpb report [--explain] [FILE]
# What the judge says of a picture: two lines, `ports N' and `clear', if it passes the check, and else one, `refused K' with the
# target and the ports that number K names: `refused 12 addr 00000000e0500000 ports 2 by low 3 by low'. Where there is a target,
# the words behind each port say why the port holds it; `fpb help claims' has them.
#
#   --explain   one sentence more, for the number in plain words, with the ports' own IDs and the tree above them
#
# Without FILE, or with `-', the picture is read from standard input.
# Status: 0 clear; 1 refused; 2 bad usage, or no answer: standard error says why.

# asks: report explain
run() {
    local program=report
    options --explain "$@"
    take_file ${words[@]+"${words[@]}"}
    [ -z "$chosen" ] || program=explain
    ask "$program"
    case $answer in
    'ports '*$'\nclear' | 'ports '*$'\nclear\n'*) answered 0 ;;
    'refused '*) answered 1 ;;
    *) no_answer "$program" ;;
    esac
}
