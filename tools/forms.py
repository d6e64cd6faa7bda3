#!/usr/bin/env python3
"""Counts the places in crates/*/src that docs/DESIGN-PASS.md speaks of: tools/forms.py [--list POINT] [FOLDER]."""
import collections
import glob
import re
import sys

args = sys.argv[1:]
shown = args[args.index("--list") + 1] if "--list" in args else None
folder = next((a for a in args if a not in ("--list", shown)), ".")

texts = {}
for path in sorted(glob.glob(folder + "/crates/*/src/**/*.rt", recursive=True)):
    texts[path[len(folder) + 1:]] = open(path).read()

# A line that only speaks, and what stands behind the mark of a comment, is no code.
code = {p: [re.sub(r"//.*", "", line) for line in t.split("\n")] for p, t in texts.items()}
places = collections.defaultdict(list)


def lines(point, pattern):
    for path, all_lines in code.items():
        for n, line in enumerate(all_lines, 1):
            if re.search(pattern, line):
                places[point].append(f"{path}:{n}: {line.strip()}")


def speaks(point, pattern):
    for path, text in texts.items():
        for n, line in enumerate(text.split("\n"), 1):
            if re.search(pattern, line):
                places[point].append(f"{path}:{n}: {line.strip()}")


# 1: enums; the page says which have the shape of Option or Result.
NO_VALUE = r"(Nothing|Nowhere|Overflow|TooLarge|Failed|Refused|BadRom|Bad|TooFar|Passed|Raises|Exception|NoMatch|Begins)"
for path, text in texts.items():
    for m in re.finditer(r"^(?:pub )?enum (\w+) \{(.*?)^\}", text, re.S | re.M):
        variants = re.findall(r"^    (\w+)", re.sub(r"//.*", "", m.group(2)), re.M)
        n = text[: m.start()].count("\n") + 1
        if any(re.fullmatch(NO_VALUE, v) for v in variants) and len(variants) <= 4:
            places["1a"].append(f"{path}:{n}: enum {m.group(1)} {variants}")
speaks("1b", r"(plus 1\b|\b0: (there|none|not|nothing)|; 0 (where|for|behind)|^\s*// 1: |how many there are where|behind the last where)")
lines("1c", r"^\s*(pub )?const [A-Z_0-9]+: u(8|32|64) = (0x)?[0-9]{1,2};")
# 3: loops that count.
lines("3", r"^\s*(let (mut )?\w+ = )?(while .*\{|loop \{|for \w+ in [^.{]*\.\..*\{)")
# 4: fields copied one by one; comparisons, numbers and texts written by hand.
lines("4a", r"^\s*(\w+): (\w+\.)+\1,$")
lines("4b", r"^\s*(pub )?fn (\w+_number|smaller|at_most|less|is_(at|store|fetch|word|none|same|printable))\(")
lines("4c", r"\b(fill_row|put_row)\(")
# 5: clauses that three functions or more share, and lists of six parameters or more.
clauses = collections.defaultdict(list)
for path, text in texts.items():
    for m in re.finditer(r"^\s*requires (?:\w+ )?\{ (.*?) \}$", text, re.M):
        n = text[: m.start()].count("\n") + 1
        clauses[re.sub(r"\.(old|now)\b", "", m.group(1))].append(f"{path}:{n}: {m.group(1)}")
for same in clauses.values():
    if len(same) >= 3:
        places["5a"] += same
for path, text in texts.items():
    for m in re.finditer(r"^\s*(?:pub )?fn (\w+)(?:<[^>]*>)?\((.*?)\)", text, re.S | re.M):
        count = len(re.findall(r"\w+:", re.sub(r"//.*", "", m.group(2))))
        if count >= 6:
            n = text[: m.start()].count("\n") + 1
            places["5b"].append(f"{path}:{n}: fn {m.group(1)} with {count} parameters")
# 6: places or lengths beside a buffer, and arrays of words that stand for a struct.
lines("6", r"out: &mut \[u8\], at: usize|: &(mut )?\[u(32|64); (5|14|32|40|56|256)\]")
# 7: a kind or a number that says which function runs.
for path, text in texts.items():
    for m in re.finditer(r"^(\s*)match [^\n]*\{\n(.*?)^\1\}", text, re.S | re.M):
        arms = re.findall(r"=> (?:\{\s*)?([a-z_:]+)\(", m.group(2))
        if len(arms) >= 4:
            n = text[: m.start()].count("\n") + 1
            places["7"].append(f"{path}:{n}: {len(arms)} arms that call")

for point in sorted(places):
    if shown in (None, point):
        print(f"{point}: {len(places[point])}")
    if shown == point:
        print("\n".join(places[point]))
