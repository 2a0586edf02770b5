# shellcheck shell=bash disable=SC2154
# fpb help [COMMAND]
# What a command is for, how it is used and what its status means; without COMMAND the list of all.
# Status: 0, or 2 for bad usage.

# one line for each command: its usage, and the first sentence of its help
commands() {
    local file name
    for file in "$front"/*.sh; do
        name=$(basename "$file" .sh)
        if is_command "$name"; then printf '  %-38s %s\n' "$(usage_of "$name")" "$(help_of "$name" | sed -n '1s/[:.;].*//p')"; fi
    done
}

run() {
    options "" "$@"
    [ ${#words[@]} -le 1 ] || bad_usage "one COMMAND is enough, and \`${words[1]}' is another"
    if [ ${#words[@]} -eq 1 ]; then
        is_command "${words[0]}" || bad_usage "there is no command \`${words[0]}'"
        help_on "${words[0]}"
    fi
    give "fpb: the judge of FPB registers: whether a picture of a chassis is sound, who holds what in it, and where its packets go

$(commands)
  fpb --version                          the version

FILE is a picture; without it, or as \`-', standard input. Status: 0 clear, drawn, holders named or nobody, or an end reached; 1 refused, and
for a walk Unsupported Request or doubled; 2 bad usage, input that cannot be read, output that cannot be written, or a program
that is not built. \`fpb help COMMAND' says more of each."
    exit 0
}
