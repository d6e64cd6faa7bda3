#!/bin/sh
# Builds the comparison of runs in which a remembered translation would be stale
# with the reference, and runs it.
#
#     tests/pages/run.sh ARCHIVE [SEED [RUNS]]
#
# ARCHIVE is the x86-64 archive, a file named liblavushmir.a; for Arm see
# tests/archive.sh. With fewer RUNS than 1,000,000 the counts to be met are lower
# too.
set -eu
. "$(dirname "$0")/../archive.sh"
run_with lavushmir 'ARCHIVE [SEED [RUNS]]' "$@"
