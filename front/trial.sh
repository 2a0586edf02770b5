# shellcheck shell=bash disable=SC2034,SC2154
# fpb trial [--explain] PATCH [FILE]
# What the judge would say of a picture with the vectors in the file PATCH put in, before a card gets power: two lines, `ports N'
# and `clear', or one, `refused K' with the target and the ports that number K names, as `fpb report' prints them. A patch that
# does not fit the picture is refused by 30, 31 or 32. Neither the picture nor the patch is changed.
#
#   --explain   one sentence more, for the number in plain words, as `fpb report --explain' has it
#
# Without FILE, or with `-', the picture is read from standard input; PATCH may be `-' where FILE is not.
# Status: 0 clear; 1 refused; 2 bad usage, or no answer: standard error says why.

# asks: trial explain
run() {
    local patch program=trial
    options --explain "$@"
    [ -z "$chosen" ] || program=explain
    [ ${#words[@]} -ge 1 ] || bad_usage "PATCH is missing"
    patch=${words[0]}
    take_file "${words[@]:1}"
    open_patch "$patch"
    ready "$program"
    exec 6< <(read_part patch 131073 <&7 3<&-)
    helpers+=($!)
    exec 7<&-
    consult "$program" /dev/fd/6
    [[ $told != *patch* ]] || patch_unreadable "cannot be read"
    case $answer in
    'ports '*$'\nclear' | 'ports '*$'\nclear\n'*) answered 0 ;;
    'refused '*) answered 1 ;;
    *) no_answer "$program" ;;
    esac
}

# open_patch FILE: the patch on descriptor 7, from the file named or from standard input
open_patch() {
    patch_name=$1
    [ -n "$1" ] || bad_usage "PATCH is an empty word"
    if [ "$1" = - ]; then
        [ "$input" != /dev/fd/0 ] || bad_usage "picture and patch cannot both be standard input: name a FILE"
        patch_name="standard input"
        [ -e /dev/fd/0 ] || patch_unreadable "is closed"
        [ ! -t 0 ] || say "reading a patch from the terminal"
        exec 7<&0
    else
        { exec 7<"$1"; } 2>/dev/null || patch_unreadable "cannot be opened: $(why_not "$1")"
        [ ! -d "$1" ] || patch_unreadable "is a directory, and not a patch"
    fi
}
patch_unreadable() {
    say "$patch_name $1"
    exit 2
}
