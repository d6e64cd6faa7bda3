#!/bin/sh
# Builds the benchmark, and runs it: the archive's run beside the reference's,
# and another emulator's where it is installed.
#
#     bench/run.sh ARCHIVE [--strict]
#
# ARCHIVE is the x86-64 archive, a file named liblavushmir.a. With --strict, a
# ratio above 1.5 is an error.
#
# Needs cargo and the Debian package gcc-mipsel-linux-gnu; instructions are
# counted where valgrind is installed, and gxemul is timed where it is.
#
# On Arm the program is run by qemu-x86_64, see tests/archive.sh. Its figures
# then tell of qemu's code, not of the archive's.
set -eu

if [ $# -lt 1 ] || [ $# -gt 2 ]; then
    echo "usage: $0 ARCHIVE [--strict]" >&2
    exit 2
fi
. "$(dirname "$0")/../tests/archive.sh"
use_archive lavushmir "$1"
shift
cd "$(dirname "$0")"
folder=$(mktemp -d)
trap 'rm -rf "$folder"' EXIT
here=../tests/programs
. "$here/build.sh"
both_roms
for source in crc sha sieve sort matrix; do
    build "$source.O2" "$source" emit_buffer -O2
done
build import.O1 import emit_buffer -O1
if [ "$(uname -m)" = aarch64 ]; then
    echo "on qemu-x86_64: the figures are of its code, and no measure of the archive"
fi
run_program "$folder" "$@"
./others.sh
