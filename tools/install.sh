#!/usr/bin/env bash
# install.sh PREFIX: proves what is not proved yet, then installs below PREFIX, or below DESTDIR and PREFIX where DESTDIR is set:
#   bin/fpb                      the command, which needs neither the Rattle kit nor this checkout
#   libexec/fiswalend            its programs, and what runs them
#   lib, include                 libfiswalend.a, pkgconfig/fiswalend.pc and fiswalend.h, for C on x86-64 Linux
#   share/man                    fpb(1) and fiswalend(3)
# Installed files may be moved together. Status: 0 installed; 1 not proved; 2 bad usage, or a folder that cannot be written to.
set -eu +o posix
umask 022
if [ "${1:-}" = -h ] || [ "${1:-}" = --help ]; then
    sed -n '2,/^[^#]/s/^# \{0,1\}//p' "$0"
    exit 0
fi

# cannot WORDS: says why nothing is installed, and ends
cannot() {
    echo "install.sh: $1" >&2
    exit 2
}

prefix=${1:-}
if [ $# -ne 1 ] || [ "${prefix#-}" != "$prefix" ] || [ -z "$prefix" ]; then
    cannot "one PREFIX is wanted: install.sh PREFIX; \`install.sh --help' says what is put there"
fi
if [ "${prefix#/}" = "$prefix" ]; then
    [ -z "${DESTDIR:-}" ] || cannot "with DESTDIR, PREFIX must begin with /, and \`$prefix' does not"
    prefix=$PWD/$prefix
fi
to=${DESTDIR:-}$prefix
[ "${to#/}" != "$to" ] || to=$PWD/$to
if ! mkdir -p "$to" 2>/dev/null || ! [ -w "$to" ]; then cannot "nothing can be written to $to"; fi
cd "$(dirname "$(readlink -f "$0")")/.."
self=install.sh
. tools/build.sh

# programs: those that the commands say they ask
programs() {
    sed -n 's/^# asks: //p' front/*.sh
}

# lay MODE FILE AT: installs one file below the folder
lay() {
    install -D -m "$1" "$2" "$to/$3" || cannot "$to/$3 cannot be written; what was installed before it stays"
}

for program in $(programs) fiswalend.a; do build "$program" || exit 1; done
for program in $(programs); do lay 755 "$built/$program" "libexec/fiswalend/$program"; done
for file in "$built"/x86-64/*; do lay "$(stat -c %a "$file")" "$file" "libexec/fiswalend/x86-64/${file##*/}"; done
for file in front/*.sh; do lay 644 "$file" "libexec/fiswalend/$file"; done
lay 755 fpb bin/fpb
lay 644 "$built/fiswalend.a" lib/libfiswalend.a
lay 644 include/fiswalend.h include/fiswalend.h
lay 644 man/fpb.1 share/man/man1/fpb.1
lay 644 man/fiswalend.3 share/man/man3/fiswalend.3
version=$(./fpb --version)
# the file finds the archive and the header from where it stands
lay 644 /dev/stdin lib/pkgconfig/fiswalend.pc <<PC
prefix=\${pcfiledir}/../..
libdir=\${prefix}/lib
includedir=\${prefix}/include

Name: fiswalend
Description: The judge of FPB registers: checks a chassis picture, and says where a packet goes
Version: ${version#fpb }
Cflags: -I\${includedir}
Libs: -L\${libdir} -lfiswalend
PC
echo "install.sh: fpb ${version#fpb } is installed below $to" || cannot "it is installed, but standard output cannot be written"
