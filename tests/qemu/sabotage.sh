#!/bin/sh
# Breaks a copy of the reference emulator in one place at a time and expects
# run.sh to notice each. Fails if a break changed nothing, does not build, or
# passes unnoticed.
set -eu

here=$(cd "$(dirname "$0")" && pwd)
root=$(cd "$here/../.." && pwd)
copy=$(mktemp -d)
trap 'rm -rf "$copy"' EXIT

mkdir -p "$copy/tests/qemu"
cp -R "$root/reference" "$copy/reference"
cp -R "$here/src" "$here/judge" "$here/Cargo.toml" "$here/Cargo.lock" "$here/run.sh" "$copy/tests/qemu"
rm -rf "$copy/reference/target"
src=$copy/reference/src

"$copy/tests/qemu/run.sh" >"$copy/log" 2>&1 || { cat "$copy/log"; echo "the unbroken copy fails"; exit 1; }
echo "unbroken: $(tail -n 1 "$copy/log")"

tried=0
unseen=0

# sabotage NAME FILE SED-EXPRESSION
sabotage() {
    tried=$((tried + 1))
    cp "$src/$2" "$copy/saved"
    sed "$3" "$copy/saved" >"$src/$2"
    if cmp -s "$copy/saved" "$src/$2"; then
        echo "NOT CHANGED: $1"
        exit 1
    fi
    status=0
    "$copy/tests/qemu/run.sh" >"$copy/log" 2>&1 || status=$?
    if ! grep -q 'cases in all' "$copy/log"; then
        cat "$copy/log"
        echo "DID NOT RUN: $1"
        exit 1
    fi
    first=$(sed -n 's/^first difference: //p' "$copy/log")
    if [ "$status" -ne 0 ] && [ -n "$first" ]; then
        echo "seen: $1 (first at $first; $(tail -n 1 "$copy/log" | sed 's/.*all, //'))"
    else
        echo "UNSEEN: $1"
        unseen=$((unseen + 1))
    fi
    cp "$copy/saved" "$src/$2"
}

sabotage "SRA as SRL" alu.rs 's/3 => (b as i32 >> shift_amount(word)) as u32/3 => b >> shift_amount(word)/'
sabotage "SLLV by four bits of the amount" alu.rs 's/4 => b << (a & 31)/4 => b << (a \& 15)/'
sabotage "MULT unsigned" alu.rs 's/24 => .*/24 => set_hi_lo(machine, u64::from(a) * u64::from(b)),/'
sabotage "DIV with a remainder never negative" alu.rs 's/wrapping_rem(/wrapping_rem_euclid(/'
sabotage "DIVU signed" alu.rs 's/machine.lo = quotient;/machine.lo = (a as i32).wrapping_div(b as i32) as u32;/'
sabotage "JALR reads rs after the link" alu.rs 's/^            return Ok(Some(a));/            return Ok(Some(machine.register(rs(word))));/'
sabotage "SUB without overflow" alu.rs 's/34 => subtract_or_overflow(a, b)?/34 => a.wrapping_sub(b)/'
sabotage "SUBU with overflow" alu.rs 's/35 => a.wrapping_sub(b)/35 => subtract_or_overflow(a, b)?/'
sabotage "SLT unsigned" alu.rs 's/42 => .*/42 => u32::from(a < b),/'
sabotage "NOR as OR" alu.rs 's/39 => !(a | b)/39 => a | b/'
sabotage "MFHI gives LO" alu.rs 's/16 => machine.hi/16 => machine.lo/'
sabotage "SLTIU zero-extended" execute.rs 's/0x0B => u32::from(a < signed)/0x0B => u32::from(a < unsigned)/'
sabotage "ORI sign-extended" execute.rs 's/0x0D => a | unsigned/0x0D => a | signed/'
sabotage "ADDI without overflow" execute.rs 's/0x08 => add_or_overflow(a, signed)?/0x08 => a.wrapping_add(signed)/'
sabotage "BLEZ as BLTZ" execute.rs 's/0x06 => a as i32 <= 0/0x06 => (a as i32) < 0/'
sabotage "a jump without its slot" execute.rs 's/machine.pc = machine.next_pc;/machine.pc = target.unwrap_or(machine.next_pc);/'
sabotage "BGEZAL links only when taken" branch.rs 's/if links {/if links \&\& taken {/'
sabotage "BLTZAL tests the new link" branch.rs 's/let negative = (machine.register(rs(word)) as i32) < 0;/if rt(word) == 16 { machine.set_register(recorder, 31, link(machine.pc)); }\n    &/'
sabotage "branch target from PC" branch.rs 's/pc.wrapping_add(4).wrapping_add(signed_immediate/pc.wrapping_add(signed_immediate/'
sabotage "branch offset zero-extended" branch.rs 's/(signed_immediate(word) << 2)/((word \& 0xFFFF) << 2)/'
sabotage "J without the top four bits" branch.rs 's/pc.wrapping_add(4) & 0xF000_0000 | //'
sabotage "link one word short" branch.rs 's/pc.wrapping_add(8)/pc.wrapping_add(4)/'
sabotage "LWL at the wrong place" load_store.rs 's/let above = 24 - below;/let above = below;/'
sabotage "LWR clears the bytes it keeps" load_store.rs 's/let kept = !(u32::MAX >> below);/let kept = 0;/'
sabotage "LB zero-extended" load_store.rs 's/>> below) as i8 as u32/>> below) as u8 as u32/'
sabotage "LHU sign-extended" load_store.rs 's/>> below) & 0xFFFF/>> below) as i16 as u32/'
sabotage "SWL writes the low bytes" load_store.rs 's/value >> (24 - below))/value)/'
sabotage "SWR at the wrong place" load_store.rs 's/0x2E => (1, u32::MAX << below, value << below)/0x2E => (1, u32::MAX >> below, value >> below)/'
sabotage "SH writes a byte" load_store.rs 's/0x29 => (2, 0xFFFF << below/0x29 => (2, 0xFF << below/'
sabotage "no alignment test" load_store.rs 's/if address % bytes == 0/if address % bytes < 4/'

echo "$tried tried, $unseen unseen"
[ "$unseen" -eq 0 ]
