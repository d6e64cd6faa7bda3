#!/bin/sh
# Times the arithmetic loop on gxemul, where it is installed.
#
#     bench/others.sh
#
# Of two runs the difference counts, so that start and end drop out. The figure
# is the median of five.
set -eu

cd "$(dirname "$0")"
rounds=2000000
folder=$(mktemp -d)
trap 'rm -rf "$folder"' EXIT

# program TIMES: the loop, so many times round.
program() {
    mipsel-linux-gnu-gcc -march=mips1 -mabi=32 -EL -msoft-float -mno-abicalls -fno-pic -nostdlib -static \
        -Wl,-e,_start,-Ttext=0x80010000,--build-id=none -DCOUNT="$1" arithmetic.S -o "$folder/$1.elf"
}

# spent TIMES: the nanoseconds of a run; none where it did not end. On a terminal
# of its own, since gxemul waits for keys without end where it has none.
spent() {
    began=$(date +%s%N)
    timeout 10 script -qec "gxemul -q -A -E testmips -C R3000 $folder/$1.elf" /dev/null \
        > "$folder/said" 2>&1 < /dev/null || return 1
    echo $(($(date +%s%N) - began))
}

# The nanoseconds a step, on a line for each repetition.
figures() {
    for repetition in 1 2 3 4 5; do
        echo "gxemul: repetition $repetition of 5" >&2
        few=$(spent "$rounds") && many=$(spent $((3 * rounds))) || return 1
        awk "BEGIN { print ($many - $few) / (2 * $rounds * 15) }"
    done
}

echo
echo "The arithmetic loop elsewhere, by the clock on the wall"
if ! command -v gxemul > /dev/null; then
    echo "gxemul: not run, since it is not installed"
elif program "$rounds" && program $((3 * rounds)) && figures > "$folder/figures"; then
    sort -n "$folder/figures" |
        awk 'NR == 3 { printf "gxemul (R3000, decoded once, no journal): %.2f ns a step\n", $1 }'
else
    echo "gxemul: did not end by itself, and is not timed"
fi
echo "umps3: not run, since it starts a machine from its window only"
