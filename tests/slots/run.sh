#!/bin/sh
# Builds the comparison of slots, of exceptions in them and of conversions with
# the reference, and runs it.
#
#     tests/slots/run.sh ARCHIVE [SEED [PERCENT]]
#
# ARCHIVE is the x86-64 archive, a file named liblavushmir.a; for Arm see
# tests/archive.sh. PERCENT is the share of the whole that is run; below 100 the
# counts to be met are lower too.
set -eu
. "$(dirname "$0")/../archive.sh"
run_with lavushmir 'ARCHIVE [SEED [PERCENT]]' "$@"
