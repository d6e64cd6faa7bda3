#!/bin/sh
# gdb and lavushmir-gdb: sessions of the real gdb with the programs here and of
# the demonstration, wrong stubs that these must notice, the C side beside any
# answer, and the speed. Where a run stops is tests/hits, damaged packets are
# tests/packets.
#
#     tests/gdb/run.sh ARCHIVE
#
# ARCHIVE is libstation.a, for x86-64. Needs gdb-multiarch, gcc-mipsel-linux-gnu
# and python3; on Arm gcc-x86-64-linux-gnu and qemu-user.
set -eu
if [ $# -ne 1 ] || [ ! -f "$1" ]; then
    echo "usage: $0 ARCHIVE" >&2
    exit 2
fi
archive=$(cd "$(dirname "$1")" && pwd)/$(basename "$1")
here=$(cd "$(dirname "$0")" && pwd)
work=$(mktemp -d)
trap 'rm -rf "$work"' EXIT
export PYTHONDONTWRITEBYTECODE=1

fail() {
    echo "tests/gdb/run.sh: $*" >&2
    exit 1
}

case $(uname -m) in
x86_64) cc=${CC:-cc} runner= ;;
*) cc=${CC:-x86_64-linux-gnu-gcc} runner=qemu-x86_64 ;;
esac

"$here/../../station/build.sh" "$archive" "$work/bin"
"$here/programs.sh" "$work"
cd "$work"
PATH=$work/bin:$PATH

# A station that stands where its program begins.
station() {
    rm -rf "$1"
    case $2 in
    import) set -- "$1" kernel.rom boot.rom import.bin 32768 ;;
    ticks) set -- "$1" ticks_kernel.rom ticks_boot.rom ticks.bin 32768 ;;
    small) set -- "$1" ticks_kernel.rom ticks_boot.rom ticks.bin 3000 ;;
    tiny) set -- "$1" ticks_kernel.rom ticks_boot.rom ticks.bin 16 ;;
    esac
    {
        echo "new ram 64 journal $5 delay 20 execution $2 bootstrap $3"
        echo "load $4 0x20001000"
        if [ "$4" = import.bin ]; then echo "load $here/../../programs/inch.job 0x20004000"; fi
        echo save
    } | lavushmir "$1" > new.log 2>&1 || { cat new.log >&2; fail "no station"; }
}

# gdb with the lines of a script, each as a command of its own, so that an error ends none but its own: what it says is in
# NAME.out. Words behind the third are the stub.
session() {
    name=$1 elf=$2 folder=$3
    shift 3
    stub=${*:-lavushmir-gdb}
    set -- -ex "set width 0" -ex "set height 0" -ex "target remote | $stub $folder"
    while IFS= read -r line; do
        case $line in
        '#'* | '') ;;
        *) set -- "$@" -ex "$line" ;;
        esac
    done < "$here/$name.gdb"
    timeout "${limit:-120}" gdb-multiarch -q -nx -batch "$elf" "$@" > "$name.out" 2>&1 || true
}

# NAME ELF STATION: the session says what is expected. Words behind the third are the stub.
says() {
    session "$@"
    python3 "$here/check.py" "$here/$1.expected" "$1.out" || { cat "$1.out" >&2; fail "$1.gdb says something else"; }
    echo "gdb: $1: $(grep -c . "$here/$1.expected") lines as expected"
}

# FAULT NAME ELF STATION: with a wrong stub it does not.
notices() {
    session "$2" "$3" "$4" python3 "$here/wrong.py" "$1" lavushmir-gdb
    if python3 "$here/check.py" "$here/$2.expected" "$2.out" 2> /dev/null; then
        fail "the fault $1 is not noticed by $2.gdb"
    fi
    echo "gdb: the fault $1 is noticed by $2"
}

# The job is done, and its units are wrong.
job_done() {
    station job import
    lavushmir job run 32000 > run.log
}

job_done
says story import.elf job
station job import
says kernel import.elf job
for name in ticks watch save attach writes monitor; do
    if [ $name != attach ]; then station t ticks; fi
    says $name ticks.elf t
done
station t small
says interrupt ticks.elf t
station t ticks
says stands ticks.elf t python3 "$here/wrong.py" early lavushmir-gdb

# A stub that stands between and changes nothing is not noticed; each fault is.
job_done
session story import.elf job python3 "$here/wrong.py" none lavushmir-gdb
python3 "$here/check.py" "$here/story.expected" story.out || fail "the stub between is noticed by itself"
job_done
notices late story import.elf job
job_done
notices silent story import.elf job
station t ticks
notices endless ticks ticks.elf t
station t ticks
notices deaf stands ticks.elf t
station t small
limit=15
notices unbroken interrupt ticks.elf t
limit=120
station t ticks
session save ticks.elf t python3 "$here/wrong.py" forgets lavushmir-gdb
session attach ticks.elf t
if python3 "$here/check.py" "$here/attach.expected" attach.out 2> /dev/null; then
    fail "a detach that does not save is not noticed"
fi
echo "gdb: a detach that does not save is noticed"

# The recorded session of docs/GDB.md, run again, and one with a line changed.
mkdir page && ln -s "$here/../../programs" page/programs
python3 "$here/page.py" shell "$here/../../docs/GDB.md" | grep -v '^gdb-multiarch' > page.sh
(cd page && sh -eu ../page.sh > page.log 2>&1) || { cat page/page.log >&2; fail "the commands of docs/GDB.md fail"; }
python3 "$here/page.py" script "$here/../../docs/GDB.md" > page/work/page.gdb
python3 "$here/page.py" session "$here/../../docs/GDB.md" > page.expected
(cd page/work && timeout 120 gdb-multiarch -q -nx -batch -ex "set width 0" -ex "set height 0" import.elf -x page.gdb) \
    > page.raw 2>&1 || true
python3 "$here/page.py" said page.raw > page.out
diff page.expected page.out || fail "docs/GDB.md is not what gdb says"
sed 's/copy_name/copy_nam/' page.expected | diff -q - page.out > /dev/null && fail "a changed page is not noticed"
echo "gdb: docs/GDB.md: $(wc -l < page.out) lines of a session as the page has them"

# The C side beside a session that answers by dice, natively, with the address sanitizer.
gcc -std=c99 -D_POSIX_C_SOURCE=200809L -Wall -Wextra -pedantic -Werror -O1 -g -fsanitize=address,undefined \
    -fno-sanitize-recover=all -I "$here/../../include" -I "$here/../../station" "$here/any.c" \
    "$here"/../../station/gdb/*.c "$here"/../../station/*.c -o any
station t tiny
count=0
while [ $count -lt 10 ]; do
    status=0
    head -c 20000 bin/lavushmir-gdb* 2> /dev/null | ANY_SEED=$count ./any t > any.out 2> any.err || status=$?
    if [ $status -gt 4 ] || grep -q Sanitizer any.err; then
        cat any.err >&2
        fail "the C side with seed $count: status $status"
    fi
    count=$((count + 1))
done
echo "gdb: the C side bears any answer, with the address sanitizer: $count sessions by dice"

$cc -std=c99 -D_DEFAULT_SOURCE -Wall -Wextra -pedantic -Werror -O1 -g "$here/speed.c" "$archive" -o speed
# Under an emulator a time says little: there the ratio is only told.
$runner ./speed || [ -n "$runner" ] || fail "too slow"
echo "tests/gdb: all passed"
