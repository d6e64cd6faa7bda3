#!/bin/sh
# Compares the reference emulator with qemu-mipsel on random cases.
# Usage: run.sh [seed]
# Needs the Debian packages qemu-user, gcc-mipsel-linux-gnu and
# binutils-mipsel-linux-gnu, and cargo.
set -eu

here=$(cd "$(dirname "$0")" && pwd)
target=$here/target
mkdir -p "$target/judge"

mipsel-linux-gnu-gcc -O1 -march=mips1 -mabi=32 -EL -msoft-float \
    -mno-abicalls -fno-pic -G0 \
    -ffreestanding -fno-builtin -fno-tree-loop-distribute-patterns \
    -nostdlib -static -Wall -Wextra \
    -Wl,--build-id=none,-z,max-page-size=4096 \
    -Wl,-e,_start,-Ttext-segment=0x20000000 \
    "$here/judge/start.S" "$here/judge/judge.c" -o "$target/judge/judge"

cargo build --quiet --release -j1 --manifest-path "$here/Cargo.toml" --target-dir "$target"
exec "$target/release/compare" "$target/judge/judge" "${1:-1}"
