#!/bin/sh
# Builds the comparison of the station's reader of lines with another one that
# was written from docs/COMMANDS.md alone, and runs it.
#
#     tests/lines/run.sh ARCHIVE [SEED [LINES]]
#
# ARCHIVE is the x86-64 archive of that reader for tests, a file named libheard.a
# (tools/archive heard); for Arm see tests/archive.sh.
set -eu
. "$(dirname "$0")/../archive.sh"
run_with heard 'ARCHIVE [SEED [LINES]]' "$@"
