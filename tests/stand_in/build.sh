#!/bin/sh
# Builds archives with the reference behind their calls, to try the comparisons
# under tests/ themselves before the proved archive has what they compare.
#
#     tests/stand_in/build.sh FOLDER [disks]
#
# FOLDER then has liblavushmir.a and libprobe.a, x86-64 as the true ones; for Arm
# see tests/archive.sh. A comparison with them shows nothing of the proved code.
# With `disks` the calls are lent disks, for tests/disks.
set -eu
if [ $# -lt 1 ] || [ $# -gt 2 ] || [ ! -d "$1" ] || [ "${2-disks}" != disks ]; then
    echo "usage: $0 FOLDER [disks]" >&2
    exit 2
fi
folder=$(cd "$1" && pwd)
cd "$(dirname "$0")"
cargo build --quiet --release --locked --offline --features "${2-}" --target-dir target --target x86_64-unknown-linux-gnu
made=target/x86_64-unknown-linux-gnu/release/liblavushmir.a
cp "$made" "$folder/liblavushmir.a"
cp "$made" "$folder/libprobe.a"
