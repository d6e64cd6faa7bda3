#!/bin/sh
# Builds the comparison of blame and before with the reference, and runs it.
#
#     tests/blame/run.sh ARCHIVE [SEED [HISTORIES]]
#
# ARCHIVE is the x86-64 archive of the panel, a file named libstation.a
# (tools/archive station); for Arm see tests/archive.sh.
set -eu
. "$(dirname "$0")/../archive.sh"
run_with station 'ARCHIVE [SEED [HISTORIES]]' "$@"
