#!/bin/sh
# The tests of a station's files (station/station_files.h): sums as cksum(1)
# gives them, damaged files, a fault or a kill at every system call, power cuts,
# and several programs at once. Under a minute.
#
#     tests/files/run.sh
#
# They are built by the machine's own gcc: no archive takes part. Needs python3.
set -eu
cd "$(dirname "$0")"
files=../../station
build=$(mktemp -d)
trap 'chmod -R u+rwx "$build"; rm -rf "$build"' EXIT
chmod 755 "$build" # one test loads as another user
flags="-std=c99 -D_POSIX_C_SOURCE=200809L -Wall -Wextra -pedantic -Wconversion -Werror -I $files"
sources="$files/station_files.c $files/create.c $files/generation.c $files/current.c $files/file_set.c
    $files/station_path.c $files/say.c $files/io.c $files/cksum.c"
gcc $flags -O2 -fsanitize=undefined -fno-sanitize-recover=all -o "$build/drive" drive.c $sources
gcc $flags -O1 -g -fsanitize=address,undefined -fno-sanitize-recover=all -o "$build/drive-asan" drive.c $sources
gcc -O1 -fPIC -shared -Wall -Wextra -Werror -o "$build/shim.so" shim.c
PYTHONDONTWRITEBYTECODE=1 python3 test.py "$build"
echo "tests/files: all passed"
