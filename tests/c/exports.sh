#!/bin/sh
# The archive defines the calls that the header declares, and no other name that
# a program could meet when it is linked.
#
#     tests/c/exports.sh ARCHIVE
set -eu

if [ $# -ne 1 ] || [ ! -f "$1" ]; then
    echo "usage: $0 ARCHIVE" >&2
    exit 2
fi
header=$(dirname "$0")/../../include/lavushmir.h
declared=$(sed -n 's/^uint64_t \([a-z_]*\)(.*/\1/p' "$header" | sort)
defined=$(nm --extern-only --defined-only "$1" | awk 'NF == 3 { print $3 }' | sort)
if [ "$declared" != "$defined" ]; then
    printf '%s: the header declares\n%s\nand the archive defines\n%s\n' "$0" "$declared" "$defined" >&2
    exit 1
fi
echo "exports: $(echo "$defined" | wc -l) calls, no other global name"
