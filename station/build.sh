#!/bin/sh
# Builds the programs lavushmir and lavushmir-gdb from the C files here and
# libstation.a.
#
#     station/build.sh [ARCHIVE [FOLDER [FLAGS..]]]
#
# ARCHIVE is the x86-64 archive (tools/archive station); without it,
# target/staticlib/libstation.a. FOLDER takes the programs; without it,
# target/station. FLAGS go to the compiler.
#
# On Arm a program, NAME.x86-64, is built by gcc-x86-64-linux-gnu, and NAME is a
# script that runs it by qemu-x86_64 with libc6:amd64.
set -eu
here=$(cd "$(dirname "$0")" && pwd)
archive=${1:-$here/../target/staticlib/libstation.a}
folder=${2:-$here/../target/station}
shift $(($# < 2 ? $# : 2))
if [ ! -f "$archive" ]; then
    echo "$0: no file $archive: run 'tools/archive station'" >&2
    exit 2
fi
mkdir -p "$folder"

case $(uname -m) in
x86_64) cc=${CC:-cc} behind= ;;
aarch64) cc=${CC:-x86_64-linux-gnu-gcc} behind=.x86-64 ;;
*)
    echo "$0: neither x86_64 nor aarch64" >&2
    exit 2
    ;;
esac

# NAME FLAGS.. FILES..
program() {
    name=$1
    shift
    rm -f "$folder/$name"
    if [ -n "$behind" ]; then
        cat > "$folder/$name" << 'SCRIPT'
#!/bin/sh
exec qemu-x86_64 "$0.x86-64" "$@"
SCRIPT
        chmod +x "$folder/$name"
    fi
    $cc -std=c99 -D_POSIX_C_SOURCE=200809L -Wall -Wextra -pedantic -Wconversion -Werror -O2 "$@" \
        -I "$here/../include" -I "$here" "$archive" -o "$folder/$name$behind"
}

program lavushmir "$@" "$here"/panel/*.c "$here"/*.c
program lavushmir-gdb "$@" "$here"/gdb/*.c "$here"/*.c
