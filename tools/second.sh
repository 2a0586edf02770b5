# shellcheck shell=bash disable=SC2034,SC2154
# Sourced: builds the second program, which the proved judge is held against, and what makes the calls of its stories, and counts
# where the two agree. The caller stands in the root of the checkout.

# find_cargo: cargo of this machine, or of Debian's packages; the plain one of Debian 12 is too old for the second program
find_cargo() {
    PATH=$PATH:$HOME/.cargo/bin
    command -v cargo >/dev/null && return
    apt-get update && { apt-get install -y cargo-web || apt-get install -y cargo; }
}

# build_second: has the second program built, and gives its path as `second`; says what is missing
build_second() {
    find_cargo >/dev/null 2>&1 || { echo "cargo is missing, and apt-get does not install it"; return 1; }
    (cd second && cargo build --release --offline --quiet) || { echo "the second program does not build"; return 1; }
    second=$PWD/second/target/release/second
}

# build_histories OUT: compiles tests/c/histories.c, which makes the calls of stories, and links it with the archive that is built;
# for a caller that has sourced tools/build.sh
build_histories() {
    local words=(-std=c99 -Wall -Wextra -Wpedantic -Werror -isystem tests/c/headers -I include)
    kit_cc "$1.o" "${words[@]}" tests/c/histories.c && kit_link "$1" "$1.o" "$built/fiswalend.a"
}

# agreement EXPECTED ACTUAL: how many lines are the same in both files, and how many are not
agreement() {
    awk 'NR == FNR { wanted[FNR] = $0; lines = FNR; next }
        FNR in wanted && wanted[FNR] == $0 { same++ }
        END { print same + 0, (lines > FNR ? lines : FNR) - same }' "$1" "$2"
}
