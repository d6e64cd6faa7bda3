# To be sourced, with `here` the folder of this file and `folder` where the files go: the
# two ROMs, and programs at any level. Needs the Debian package gcc-mipsel-linux-gnu.

cc="mipsel-linux-gnu-gcc -march=mips1 -mabi=32 -EL -msoft-float -mno-abicalls -fno-pic -G0
    -ffreestanding -fno-builtin -fno-tree-loop-distribute-patterns -nostdlib -static
    -Wall -Wextra -Werror -Wl,--build-id=none,-z,max-page-size=4096"

# rom NAME BASE
rom() {
    $cc -Wl,-e,_start,-Ttext="$2" "$here/machine/$1.S" -o "$folder/$1.elf"
    mipsel-linux-gnu-objcopy -O binary -j .text "$folder/$1.elf" "$folder/$1.rom"
    rm "$folder/$1.elf"
}

# build NAME SOURCE EMIT FLAGS
build() {
    $cc $4 -T "$here/machine/program.ld" "$here/machine/start.S" "$here/c/$2.c" "$here/c/main.c" \
        "$here/c/output.c" "$here/c/$3.c" "$here/c/random.c" "$here/c/memory.c" -o "$folder/$1.elf"
}

both_roms() {
    rom bootstrap 0x1FC00000
    rom execution 0
}
