#!/bin/sh
# Builds the comparison of the first calls with the reference, and runs it.
#
#     tests/calls/run.sh ARCHIVE [SEED]
#
# ARCHIVE is the x86-64 archive, a file named liblavushmir.a, with libprobe.a, the
# archive of what only tests ask, beside it; for Arm see tests/archive.sh.
set -eu

if [ $# -lt 1 ] || [ $# -gt 2 ]; then
    echo "usage: $0 ARCHIVE [SEED]" >&2
    exit 2
fi
. "$(dirname "$0")/../archive.sh"
use_archive lavushmir "$1"
use_probe
shift
cd "$(dirname "$0")"
run_program "$@"
