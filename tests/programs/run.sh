#!/bin/sh
# Compiles whole programs, runs them under qemu-mipsel, and runs them on the
# archive and the reference.
#
#     tests/programs/run.sh ARCHIVE [SEED]
#
# ARCHIVE is the x86-64 archive, a file named liblavushmir.a. Needs the Debian
# packages gcc-mipsel-linux-gnu and qemu-user, and cargo; for Arm see
# tests/archive.sh.
set -eu

if [ $# -lt 1 ] || [ $# -gt 2 ]; then
    echo "usage: $0 ARCHIVE [SEED]" >&2
    exit 2
fi
. "$(dirname "$0")/../archive.sh"
use_archive lavushmir "$1"
shift
folder=$(mktemp -d)
trap 'rm -rf "$folder"' EXIT
cd "$(dirname "$0")"
./compile.sh "$folder"
run_program "$folder" "$@"
