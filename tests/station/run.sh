#!/bin/sh
# The program lavushmir from end to end: the exit status of each kind of end,
# scripts, signals, a terminal, the lock, damaged stations, a fault or a kill at
# every system call of a save, and stations of earlier versions.
#
#     tests/station/run.sh ARCHIVE [PART ..]
#
# ARCHIVE is the x86-64 archive (tools/archive station). PART: answers, statuses,
# sessions, damages, faults, conversions. Needs gcc and python3; on Arm gcc-x86-64-linux-gnu,
# qemu-user and libc6:amd64.
#
# Two builds are tried, one of them with the compiler's checks for undefined
# behaviour and for bad addresses. The latter want more memory than qemu can
# give, so on Arm this build goes without; the C side alone, beside a session
# that answers by dice, has them on both.
set -eu
if [ $# -lt 1 ] || [ ! -f "$1" ]; then
    echo "usage: $0 ARCHIVE [PART ..]" >&2
    exit 2
fi
archive=$(cd "$(dirname "$1")" && pwd)/$(basename "$1")
shift
here=$(cd "$(dirname "$0")" && pwd)
build=$(mktemp -d)
trap 'chmod -R u+rwx "$build"; rm -rf "$build"' EXIT
chmod 755 "$build" # some tests run as another user

case $(uname -m) in
x86_64) cc=${CC:-cc} checks="-fsanitize=address,undefined" ;;
*) cc=${CC:-x86_64-linux-gnu-gcc} checks="-fsanitize=undefined -static-libubsan" ;;
esac
"$here/../../station/build.sh" "$archive" "$build/plain"
"$here/../../station/build.sh" "$archive" "$build/checked" -g $checks -fno-sanitize-recover=all
$cc -O1 -fPIC -shared -Wall -Wextra -Werror -o "$build/shim.so" "$here/../files/shim.c"
gcc -std=c99 -D_POSIX_C_SOURCE=200809L -Wall -Wextra -pedantic -Werror -O1 -g -fsanitize=address,undefined \
    -fno-sanitize-recover=all -I "$here/../../include" -I "$here/../../station" "$here/any.c" "$here"/../../station/panel/*.c \
    "$here"/../../station/*.c -o "$build/any"
PYTHONDONTWRITEBYTECODE=1 python3 "$here/test.py" "$build" "$@"
echo "tests/station: all passed"
