#!/bin/sh
# Builds the comparison of disks, of their transfers and of taking them back with
# the reference, and runs it.
#
#     tests/disks/run.sh ARCHIVE [SEED [PERCENT]]
#
# ARCHIVE is the x86-64 archive, a file named liblavushmir.a, whose calls are lent
# disks; for Arm see tests/archive.sh. PERCENT is the share of the whole that is
# run; below 100 the counts to be met are lower too.
set -eu
. "$(dirname "$0")/../archive.sh"
run_with lavushmir 'ARCHIVE [SEED [PERCENT]]' "$@"
