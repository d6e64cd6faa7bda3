#!/bin/sh
# Damaged and random packets: for station_gdb_turn itself, and for the program
# lavushmir-gdb over a pipe.
#
#     tests/packets/run.sh ARCHIVE [INPUTS [SEED]]
#
# ARCHIVE is the x86-64 archive of the station, a file named libstation.a
# (tools/archive station); for Arm see tests/archive.sh. Without INPUTS it is the
# part that the gate runs; 100000 is the whole. The program gets as many, in sessions
# of up to 30, every other one of up to 8,000 bytes cut at every byte; in the whole,
# every one. It is built
# with the compiler's checks for undefined behaviour and for bad addresses; the
# latter want more memory than qemu can give, so on Arm it goes without them, and
# gets one input of three, since it is emulated. Needs python3.
set -eu
if [ $# -lt 1 ] || [ $# -gt 3 ]; then
    echo "usage: $0 ARCHIVE [INPUTS [SEED]]" >&2
    exit 2
fi
. "$(dirname "$0")/../archive.sh"
use_archive station "$1"
cd "$(dirname "$0")"
inputs=${2:-10000} seed=${3:-1}
build=$(mktemp -d)
trap 'rm -rf "$build"' EXIT

run_program "$inputs" "$seed"

case $(uname -m) in
x86_64) checks="-fsanitize=address,undefined" sent=$inputs ;;
*) checks="-fsanitize=undefined -static-libubsan" sent=$((inputs / 3)) ;;
esac
../../station/build.sh "$ARCHIVE_DIR/libstation.a" "$build" -g $checks -fno-sanitize-recover=all
run_program write "$sent" "$seed" "$build/inputs"
export ASAN_OPTIONS=exitcode=99:detect_leaks=0 UBSAN_OPTIONS=exitcode=99:print_stacktrace=1
every=
if [ "$inputs" -ge 100000 ]; then every=all; fi
PYTHONDONTWRITEBYTECODE=1 python3 pipe.py "$build" "$build/inputs" $every
