#!/bin/sh
# The session's calls from C: scripts with what they show (NAME.KIND.in and
# NAME.KIND.out; KIND is prompt, script or arguments), and random turns.
#
#     tests/panel/run.sh ARCHIVE [SEED [TURNS]]
#
# ARCHIVE is libstation.a, for x86-64. On Arm the programs are built by
# gcc-x86-64-linux-gnu and run by qemu-x86_64.
set -eu

if [ $# -lt 1 ] || [ ! -f "$1" ]; then
    echo "usage: $0 ARCHIVE [SEED [TURNS]]" >&2
    exit 2
fi
archive=$1
here=$(dirname "$0")

case $(uname -m) in
x86_64)
    cc=${CC:-cc} runner= sanitize="-fsanitize=address,undefined -fno-sanitize-recover=all"
    ;;
aarch64)
    # The address sanitizer does not run under the emulator.
    cc=${CC:-x86_64-linux-gnu-gcc} runner=qemu-x86_64
    sanitize="-fsanitize=undefined -fsanitize-undefined-trap-on-error"
    ;;
*)
    echo "$0: neither x86_64 nor aarch64" >&2
    exit 2
    ;;
esac

scratch=$(mktemp -d)
trap 'rm -rf "$scratch"' EXIT
flags="-std=c99 -Wall -Wextra -pedantic -Werror -O1 -g $sanitize"

$cc $flags "$here/panel.c" "$archive" -o "$scratch/panel"
$cc $flags "$here/random.c" "$archive" -o "$scratch/random"

scripts=0
for in in "$here"/*.in; do
    kind=${in%.in}
    kind=${kind##*.}
    $runner "$scratch/panel" "$kind" < "$in" > "$scratch/out"
    if ! diff -u "${in%.in}.out" "$scratch/out"; then
        echo "$0: $in shows something else" >&2
        exit 1
    fi
    if LC_ALL=C awk 'length > 80 { exit 1 }' "$scratch/out"; then :; else
        echo "$0: $in shows a line of more than 80 columns" >&2
        exit 1
    fi
    scripts=$((scripts + 1))
done
echo "panel: $scripts sessions show what they showed before, in 80 columns"
$runner "$scratch/random" "${2:-1}" "${3:-100000}"
