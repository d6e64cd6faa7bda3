#!/bin/sh
# Builds the comparison of where gdb's runs stop with the reference, and runs it.
#
#     tests/hits/run.sh ARCHIVE [QUESTIONS [SEED]]
#
# ARCHIVE is the x86-64 archive of the station, a file named libstation.a
# (tools/archive station); for Arm see tests/archive.sh. Without QUESTIONS it is
# the part that the gate runs; 20000 is the whole.
set -eu
. "$(dirname "$0")/../archive.sh"
run_with station 'ARCHIVE [QUESTIONS [SEED]]' "$@"
