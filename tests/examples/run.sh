#!/bin/sh
# Compiles examples/panel.c with all warnings as errors, runs it, and compares
# what it prints with the stored copy.
#
#     tests/examples/run.sh ARCHIVE
#
# ARCHIVE is the x86-64 archive, liblavushmir.a. On Arm the program is built by
# gcc-x86-64-linux-gnu and run by qemu-x86_64.
set -eu

if [ $# -ne 1 ] || [ ! -f "$1" ]; then
    echo "usage: $0 ARCHIVE" >&2
    exit 2
fi
archive=$1
here=$(dirname "$0")
root=$here/../..

case $(uname -m) in
x86_64) cc=${CC:-cc} runner= ;;
aarch64) cc=${CC:-x86_64-linux-gnu-gcc} runner=qemu-x86_64 ;;
*)
    echo "$0: neither x86_64 nor aarch64" >&2
    exit 2
    ;;
esac

scratch=$(mktemp -d)
trap 'rm -rf "$scratch"' EXIT
$cc -std=c99 -Wall -Wextra -pedantic -Werror -static -I "$root/include" "$root/examples/panel.c" "$archive" \
    -o "$scratch/panel"
$runner "$scratch/panel" > "$scratch/panel.txt"
diff "$here/panel.txt" "$scratch/panel.txt" || {
    echo "$0: examples/panel.c prints something else than tests/examples/panel.txt" >&2
    exit 1
}
echo "examples/panel.c: prints what is stored, $(wc -l < "$here/panel.txt") lines"
