#!/bin/sh
# Holds the names that the archive defines to the header, compiles the header
# from C99 and from C++11 with all warnings as errors, links the programs with
# the archive, and runs them.
#
#     tests/c/run.sh ARCHIVE
#
# ARCHIVE is the x86-64 archive. On Arm the programs are built by
# gcc-x86-64-linux-gnu and g++-x86-64-linux-gnu and run by qemu-x86_64 with the
# shared libraries of libc6:amd64 and libstdc++6:amd64. (Those of the cross
# compiler, by -L, stop in the loader: "stack smashing detected".)
set -eu

if [ $# -ne 1 ] || [ ! -f "$1" ]; then
    echo "usage: $0 ARCHIVE" >&2
    exit 2
fi
archive=$1
here=$(dirname "$0")
include=$here/../../include

case $(uname -m) in
x86_64)
    cc=${CC:-cc} cxx=${CXX:-c++} runner=
    ;;
aarch64)
    cc=${CC:-x86_64-linux-gnu-gcc} cxx=${CXX:-x86_64-linux-gnu-g++}
    runner=qemu-x86_64
    ;;
*)
    echo "$0: neither x86_64 nor aarch64" >&2
    exit 2
    ;;
esac

scratch=$(mktemp -d)
trap 'rm -rf "$scratch"' EXIT
warnings="-Wall -Wextra -pedantic -Werror"

"$here/exports.sh" "$archive"

# The header needs no other header before it, and may be included twice.
printf '#include "lavushmir.h"\n#include "lavushmir.h"\n' > "$scratch/header.c"
cp "$scratch/header.c" "$scratch/header.cpp"
$cc -std=c99 $warnings -I "$include" -c "$scratch/header.c" -o "$scratch/header_c.o"
$cxx -std=c++11 $warnings -I "$include" -c "$scratch/header.cpp" -o "$scratch/header_cpp.o"

$cc -std=c99 $warnings -O1 -I "$include" "$here/reset.c" "$archive" -o "$scratch/reset_c"
$cc -std=c99 $warnings -O1 -I "$include" "$here/run.c" "$archive" -o "$scratch/run_c"
$cc -std=c99 $warnings -O1 -I "$include" "$here/back.c" "$archive" -o "$scratch/back_c"
$cc -std=c99 $warnings -O1 -I "$include" "$here/convert.c" "$archive" -o "$scratch/convert_c"
$cc -std=c99 $warnings -O1 -I "$include" "$here/last_write.c" "$archive" -o "$scratch/last_write_c"
$cc -std=c99 $warnings -O1 -I "$include" "$here/header.c" "$archive" -o "$scratch/header_checks"
$cxx -std=c++11 $warnings -O1 -I "$include" "$here/reset.cpp" "$archive" -o "$scratch/reset_cpp"
$runner "$scratch/reset_c"
$runner "$scratch/run_c"
$runner "$scratch/back_c"
$runner "$scratch/convert_c"
$runner "$scratch/last_write_c"
$runner "$scratch/header_checks"
$runner "$scratch/reset_cpp"
