#!/bin/sh
# Builds the comparison of run with the reference, and runs it.
#
#     tests/run/run.sh ARCHIVE [SEED [RUNS]]
#
# ARCHIVE is the x86-64 archive, a file named liblavushmir.a; for Arm see
# tests/archive.sh. RUNS is the number of random runs; with fewer than 200,000
# the counts to be met are lower.
set -eu
. "$(dirname "$0")/../archive.sh"
run_with lavushmir 'ARCHIVE [SEED [RUNS]]' "$@"
