#!/bin/sh
# Makes the programs of the demonstration in FOLDER: boot.rom, kernel.rom,
# import.bin, import.lst, the listing of the import program, and for gdb
# boot.elf, kernel.elf and import.elf.
#
#     programs/build.sh FOLDER
#
# Needs the Debian package gcc-mipsel-linux-gnu.
set -eu

folder=$(cd "$1" && pwd)
cd "$(dirname "$0")"
# Slots stay empty: an exception does not tell whether it came in one. Functions
# stay as the source has them, so that an address tells which one it is.
cc="mipsel-linux-gnu-gcc -march=mips1 -mabi=32 -EL -msoft-float -mno-abicalls -fno-pic -G0
    -O1 -fno-delayed-branch -fno-inline -ffreestanding -fno-builtin -nostdlib -static -g
    -Wall -Wextra -Werror -Wl,--build-id=none,-z,max-page-size=4096"

# image NAME FILE
image() {
    mipsel-linux-gnu-objcopy -O binary -j .text -j .rodata "$folder/$1.elf" "$folder/$2"
    chmod 644 "$folder/$2"
}

$cc -Wl,-e,_start,-Ttext=0x1FC00000 boot.S -o "$folder/boot.elf"
$cc -Wl,-e,_start,-Ttext=0 kernel.S -o "$folder/kernel.elf"
$cc -T import.ld start.S import.c -o "$folder/import.elf"
image boot boot.rom
image kernel kernel.rom
image import import.bin

# A line for each instruction: its address, its word, and where it comes from.
mipsel-linux-gnu-gcc --version | sed -n '1s/^/# /p' > "$folder/import.lst"
mipsel-linux-gnu-objdump -d -l -j .text "$folder/import.elf" | awk '
    /^[0-9a-f]+ <.*>:$/ { gsub(/[<>:]/, "", $2); name = $2 }
    /^\/.*:[0-9]+/ { sub(/.*\//, ""); sub(/ .*/, ""); place = $0 }
    /^[0-9a-f]+:/ {
        sub(":", "", $1)
        printf "0x%s  0x%s  %-12s  %-12s  %s%s\n", $1, $2, name, place, $3, $4 == "" ? "" : " " $4
    }' >> "$folder/import.lst"
