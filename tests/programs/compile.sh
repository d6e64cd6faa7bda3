#!/bin/sh
# Compiles every program at every level into FOLDER, with the two ROMs, and
# runs it under qemu-mipsel for its output and its end.
#
#     tests/programs/compile.sh FOLDER
#
# Needs the Debian packages gcc-mipsel-linux-gnu and qemu-user.
set -eu

folder=$1
here=$(cd "$(dirname "$0")" && pwd)
. "$here/build.sh"
# A trap under qemu is expected and leaves no core file.
ulimit -c 0

# expect NAME: what qemu says of it.
expect() {
    status=0
    qemu-mipsel "$folder/$1.elf" > "$folder/$1.out" 2> "$folder/$1.err" || status=$?
    echo "$status" > "$folder/$1.status"
}

both_roms
for source in sort crc sha sieve format matrix recurse import pack wide narrow divide limits rare; do
    for level in O0 O1 O2 Os; do
        build "$source.$level" "$source" emit_buffer "-$level"
        expect "$source.$level"
    done
    # Once more with empty slots, so that interrupts meet both kinds of code.
    build "$source.O1.empty" "$source" emit_buffer "-O1 -fno-delayed-branch"
    expect "$source.O1.empty"
done
for ending in 1 2 3 4 5 6 7; do
    build "ends$ending.O1" ends emit_buffer "-O1 -DENDING=$ending"
    expect "ends$ending.O1"
done
for source in import recurse narrow; do
    for level in -O0 -O2; do
        name=$source.$(echo "$level" | cut -c 2-3)
        build "$name.printer" "$source" emit_printer "$level"
        cp "$folder/$name.out" "$folder/$name.printer.out"
        cp "$folder/$name.status" "$folder/$name.printer.status"
    done
done

# The programs of the sweep. Branches in slots are nothing for qemu.
mkdir "$folder/sweep"
assemble() {
    $cc $2 -T "$here/machine/program.ld" "$here/machine/start.S" "$here/machine/branches.S" -o "$folder/sweep/$1.elf"
}
assemble branches ""
assemble nested -DBRANCH_IN_SLOT
expect sweep/branches
