#!/bin/sh
# Breaks a copy of the reader of lines.rs in one place at a time and expects the
# comparison with the archive to notice each. Fails if a break changed nothing,
# does not build, or passes unnoticed.
#
#     tests/lines/sabotage.sh ARCHIVE [LINES]
set -eu

if [ $# -lt 1 ] || [ $# -gt 2 ]; then
    echo "usage: $0 ARCHIVE [LINES]" >&2
    exit 2
fi
archive=$(cd "$(dirname "$1")" && pwd)/$(basename "$1")
lines=${2:-3000}
here=$(cd "$(dirname "$0")" && pwd)
copy=$(mktemp -d)
trap 'rm -rf "$copy"' EXIT

mkdir -p "$copy/lines"
cp -R "$here/../common" "$here/../archive.sh" "$copy"
cp -R "$here/src" "$here/Cargo.toml" "$here/Cargo.lock" "$here/run.sh" "$copy/lines"
src=$copy/lines/src/lines.rs
cp "$src" "$copy/saved"

"$copy/lines/run.sh" "$archive" 1 "$lines" > "$copy/log" 2>&1 || { cat "$copy/log"; echo "the unbroken copy fails"; exit 1; }
echo "unbroken: $(tail -n 1 "$copy/log")"

tried=0
unseen=0

# sabotage NAME SED-EXPRESSION
sabotage() {
    tried=$((tried + 1))
    sed "$2" "$copy/saved" > "$src"
    if cmp -s "$copy/saved" "$src"; then
        echo "NOT CHANGED: $1"
        exit 1
    fi
    status=0
    "$copy/lines/run.sh" "$archive" 1 "$lines" > "$copy/log" 2>&1 || status=$?
    first=$(sed -n 's/^lines: not equal: //p' "$copy/log")
    if [ "$status" -eq 1 ] && [ -n "$first" ]; then
        echo "seen: $1 (first by $first)"
    elif grep -q 'two forms fit one line' "$copy/log"; then
        echo "seen: $1 (two forms fit one line)"
    elif grep -q '^error' "$copy/log"; then
        cat "$copy/log"
        echo "DOES NOT BUILD: $1"
        exit 1
    else
        echo "UNSEEN: $1"
        unseen=$((unseen + 1))
    fi
}

sabotage "a tab is a gap" "/fn gap/,/^    }/s/byte == b' '/byte == b' ' || byte == 9/"
sabotage "a gap is one space" "/fn gap/,/^    }/s/_ => Ok(())/1 => Ok(()), _ => Err(self.place)/"
sabotage "no spaces at the end" "/fn end/,/^    }/s/self.while_any(|byte| byte == b' ');//"
sabotage "a zero byte ends a line" "/fn end/,/^    }/s/None => Ok/None | Some(0) => Ok/"
sabotage "spaces at the start count" "s/let start = .*/let start = 0;/"
sabotage "a comment at the first byte only" "s/line\[start\] == b'#'/line[0] == b'#'/"
sabotage "a comment behind any command" "/fn end/,/^    }/s/None => Ok/None | Some(b'#') => Ok/"
sabotage "a word fails at its first byte" "/fn word/,/^    }/{s/for byte in/let from = self.place; for byte in/;s/Err(self.place)/Err(from)/}"
sabotage "a number too large fails at its end" "s/more.ok_or(first)?/more.ok_or(self.place)?/"
sabotage "a number too large goes round" "s/let more = .*/let more = Some(value.wrapping_mul(base.into()).wrapping_add(digit.into()));/"
sabotage "2^64 - 1 is too large" "s/more.ok_or(first)?/more.filter(|v| *v != u64::MAX).ok_or(first)?/"
sabotage "0x without digits fails at the 0" "/fn digits/,/^    }/s/return Err(self.place)/return Err(first)/"
sabotage "0X is no number" "s/b'x' | b'X'/b'x'/"
sabotage "upper-case digits are none" "s/byte.is_ascii_hexdigit()/byte.is_ascii_digit() || (b'a'..=b'f').contains(\&byte)/"
sabotage "a name may have no byte above 0x7F" "s/byte > 0x20/byte > 0x20 \&\& byte < 0x80/"
sabotage "a name may have control bytes" "s/byte > 0x20/byte != 0x20/"
sabotage "a name ends one byte early" "s/self.place as u64\]/self.place as u64 - 1]/"
sabotage "no memory of settings that were left out" "s/self.left_out = self.left_out.max(place);//"
sabotage "a setting that was left out moves on" "/fn setting_begins/,/^    }/s/self.place = from;//"
sabotage "paper 4096 where it is left out" 's/("paper", 8192)/("paper", 4096)/'
sabotage "delay before scale" 's/("scale", 1)/("delay", 100)/;t;s/("delay", 100)/("scale", 1)/'
sabotage "a setting without a gap before its number" "/fn settings/,/^    }/s/self.gap()?;/let _ = self.gap();/"
sabotage "a count in hexadecimal" "s/count = self.decimal()?/count = self.number()?/"
sabotage "a count of 0 where it is left out" "s/= (1, 0, 2)/= (0, 0, 2)/"
sabotage "bytes where the unit is left out" "s/= (1, 0, 2)/= (1, 0, 0)/"
sabotage "u before d" 's/b"xduc"/b"xudc"/'
sabotage "no unit without a format" "s/unit = self.letter(UNITS).unwrap_or(unit)/unit = if format > 0 { self.letter(UNITS).unwrap_or(unit) } else { unit }/"
sabotage "xp as x" 's/"xp+SHAPE NUMBER", &\[1\]/"xp+SHAPE NUMBER", \&[0]/'
sabotage "run exception without a number is 0" 's/&\[u64::MAX\]/\&[0]/'
sabotage "back alone" 's/(6, "rsi", &\[1\])/(6, "back", \&[1])/'
sabotage "si is no word" 's/(5, "si", &\[1\])/(5, "s", \&[1])/'
sabotage "help xp" 's/"help x"/"help xp"/'
sabotage "paper and papers the other way round" 's/(15, "paper NUMBER"/(16, "paper NUMBER"/;t;s/(16, "paper"/(15, "paper"/'
sabotage "the last form's place" "s/furthest = furthest.max(place).max(reader.left_out)/furthest = place/"
sabotage "the first form's place" "s/furthest = furthest.max(place).max(reader.left_out)/if furthest == start { furthest = place }/"

echo "$tried breaks, $unseen unseen"
[ "$unseen" -eq 0 ]
