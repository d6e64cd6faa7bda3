#!/bin/sh
# Builds the comparison of the index, and of the question who last wrote a word,
# with the reference, and runs it.
#
#     tests/index/run.sh ARCHIVE [SEED [HISTORIES]]
#
# ARCHIVE is the x86-64 archive, a file named liblavushmir.a; for Arm see
# tests/archive.sh. With fewer than 100,000 histories the counts to be met are
# lower; with fewer than 1,000 some can not be met.
set -eu
. "$(dirname "$0")/../archive.sh"
run_with lavushmir 'ARCHIVE [SEED [HISTORIES]]' "$@"
