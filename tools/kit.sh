# shellcheck shell=bash
# Sourced: finds the kit by rt on the PATH, and compiles, links and runs x86-64 programs with it.
kit_home() {
    local rt
    rt=$(command -v rt) || { echo "rt, the command of the Rattle kit, is not on the PATH" >&2; return 1; }
    printf '%s\n' "${RATTLE_HOME:-$(dirname "$(dirname "$(readlink -f "$rt")")")}"
}

# kit_tools: the folder of the kit's compiler, C library and, where a kit has one, emulator.
kit_tools() {
    local home
    home=$(kit_home) || return 1
    printf '%s\n' "$home/toolchain"
}

# run_x86 FILE ARGS..: runs an x86-64 executable by the kit's loader, under the kit's emulator where it has one.
run_x86() {
    local tools emulator
    tools=$(kit_tools) || return 1
    emulator=$tools/bin/qemu-x86_64
    [ -x "$emulator" ] || emulator=
    ${emulator:+"$emulator"} "$tools/lib/ld-linux-x86-64.so.2" --library-path "$tools/lib" "$@"
}

# put FILE AT: copies a file in one step, so that what runs from AT goes on with the old one.
put() {
    cp -L "$1" "$2.new" && mv "$2.new" "$2"
}

# has_loader FOLDER: whether what runs an x86-64 program is there: the loader, and the C library.
has_loader() {
    [ -f "$1/ld-linux-x86-64.so.2" ] && [ -f "$1/libc.so.6" ]
}

# lay_loader FOLDER: copies what runs an x86-64 program, so that it needs the kit no more: loader, C library, and the emulator where
# the kit has one.
lay_loader() {
    local tools file
    tools=$(kit_tools) && mkdir -p "$1" || return 1
    for file in lib/ld-linux-x86-64.so.2 lib/libc.so.6 bin/qemu-x86_64 qemu-copyright; do
        [ ! -e "$tools/$file" ] || put "$tools/$file" "$1/${file##*/}" || return 1
    done
    has_loader "$1"
}

# kit_cc OUT FILE.. WORDS..: compiles C, or C++, to an x86-64 object by the kit's own clang, which has no headers of its own.
kit_cc() {
    local tools out=$1
    shift
    tools=$(kit_tools) || return 1
    "$tools/bin/clang" --target=x86_64-unknown-linux-gnu -nostdinc -fPIC -O2 -c -o "$out" "$@"
}

# kit_link OUT FILE..: links objects and archives into an x86-64 executable by the kit's own linker.
kit_link() {
    local tools out=$1
    shift
    tools=$(kit_tools) || return 1
    "$(dirname "$tools")/bin/rattle-link" --target x86_64-unknown-linux-gnu --toolchain "$tools" -o "$out" "$@"
}
