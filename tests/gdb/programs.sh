#!/bin/sh
# Makes the programs of these tests in FOLDER: those of the demonstration, and
# ticks.elf and ticks.bin with their ROMs.
#
#     tests/gdb/programs.sh FOLDER
#
# Needs the Debian package gcc-mipsel-linux-gnu.
set -eu
folder=$(cd "$1" && pwd)
cd "$(dirname "$0")"
../../programs/build.sh "$folder"
cc="mipsel-linux-gnu-gcc -march=mips1 -mabi=32 -EL -msoft-float -mno-abicalls -fno-pic -G0 -O0
    -ffreestanding -fno-builtin -nostdlib -static -g -Wall -Wextra -Werror
    -Wl,--build-id=none,-z,max-page-size=4096"
$cc -Wl,-e,_start,-Ttext=0x1FC00000 ticks_boot.S -o "$folder/ticks_boot.elf"
$cc -Wl,-e,_start,-Ttext=0 ticks_kernel.S -o "$folder/ticks_kernel.elf"
$cc -T ticks.ld ticks.S ticks.c -o "$folder/ticks.elf"
for rom in ticks_boot ticks_kernel; do
    mipsel-linux-gnu-objcopy -O binary -j .text "$folder/$rom.elf" "$folder/$rom.rom"
done
mipsel-linux-gnu-objcopy -O binary -j .text -j .data "$folder/ticks.elf" "$folder/ticks.bin"
chmod 644 "$folder"/*.rom "$folder"/*.bin
