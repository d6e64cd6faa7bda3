#!/bin/sh
# Builds the comparison of what is sought with the reference, and runs it.
#
#     tests/seek/run.sh ARCHIVE [SEED [HISTORIES]]
#
# ARCHIVE is the x86-64 archive of the exports for tests, a file named
# libsought.a (tools/archive sought); for Arm see tests/archive.sh.
set -eu
. "$(dirname "$0")/../archive.sh"
run_with sought 'ARCHIVE [SEED [HISTORIES]]' "$@"
