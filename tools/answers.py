#!/usr/bin/env python3
"""Turns a crate's older Proof.antt files, whose answers were listed at the end, into Invariants.antt and Answers.antt.

usage: tools/answers.py CRATE..      at the top of the repository; each crate's sources have to check

The names of goals and steps come from `rt check --generated DIR --old-names`. An answer that the check's own tactics are likely to find is left out;
tools/answers.py --all CRATE keeps each. --names=DIR takes the names that `rt names DIR` wrote. What it cannot place it prints, and leaves the Proof.antt beside the new files.
"""
import json
import os
import re
import subprocess
import sys
import tempfile

EASY = {"search rules", "omega arith", "cc", "tt"}
FIELDS = {"args", "new", "auto", "last", "result", "ensures", "requires", "invariant", "ranges", "now", "old", "initial", "true", "false"}
WORD = r"[^\s(){}\[\].,;:λ]+"


def alike(name):
    name = re.sub(r"^(overflow|nonzero)[-_]", "", name)
    name = re.sub(r"^slice[-_]bounds-", "part-", name)
    name = name.replace("_", "-")
    return name


def names_of(crate, known=None):
    if known:
        with open(os.path.join(known, "crates", crate, "names.json"), encoding="utf-8") as f:
            return json.load(f)
    with tempfile.TemporaryDirectory() as to:
        r = subprocess.run(["rt", "check", "--generated", to, "--old-names"], cwd=f"crates/{crate}", capture_output=True, text=True)
        path = os.path.join(to, "names.json")
        if not os.path.isfile(path):
            print(r.stdout[-3000:] + r.stderr[-3000:])
            raise SystemExit(f"{crate}: no names")
        with open(path, encoding="utf-8") as f:
            return json.load(f)


def blocks(text):
    """The file's items: each with the comment above it."""
    out, now = [], []
    prev_blank = True
    for line in text.split("\n"):
        starts = line and not line[0].isspace() and not line.startswith((")", "]"))
        if starts:
            head = re.match(WORD, line)
            name = head[0] if head else ""
            same = False
            if now:
                body = [l for l in now if not l.startswith("--")]
                if body:
                    first = re.match(r"(?:(?:abbrev|pub|unfoldable)\s+)*(" + WORD + ")", body[0])
                    same = line.startswith("unfolding ") or (first and first[1] == name and not line.startswith(("use ", "module ", "--")))
                else:
                    same = True
            if not same and now:
                out.append("\n".join(now).rstrip())
                now = []
        now.append(line)
    if now:
        out.append("\n".join(now).rstrip())
    return [b for b in out if b.strip()]


class Turn:
    """The names of one function: of its goals, and of the steps on the way to each of its places."""

    def __init__(self, made):
        self.made, self.notes = made, []
        # whether the ways back from place to place stay as they are
        self.keeps = False
        self.needs, self.asked = {}, {}
        for (old, new), (place, _) in zip(made["needs"], made["asked_at"]):
            self.needs.setdefault(alike(old), new)
            self.asked.setdefault(new, place)
        self.place = {it[0]: k for k, it in enumerate(made["places"])}
        self.calls = {}
        for it in made["places"]:
            if it[3]:
                self.calls[it[2][1]] = made["params"].get(it[3], [])
        self.loops = {alike(old): new for (old, new), _ in made["loops"]}

    def on_way(self, place):
        """The places from this one back to the start, or all, the last first."""
        if place is None:
            return list(range(len(self.made["places"]) - 1, -1, -1))
        out = []
        while place is not None:
            k = self.place[place]
            out.append(k)
            place = self.made["places"][k][1]
        return out

    def rules(self, place):
        to = {}
        for k in self.on_way(place):
            arm = self.made["arms"][k]
            if arm:
                for field, step, path in arm[2]:
                    to.setdefault((alike(step), *path), [arm[0], field])
            for var, step in self.made["typed"][k]:
                to.setdefault((alike(step), "given"), ["type_inv", var])
            old, new = self.made["places"][k][2]
            if old:
                to.setdefault((alike(old),), [new])
        for old, new in self.loops.items():
            to.setdefault((old,), [new])
        return to

    def chains(self, text, to, plain, bound):
        """Renames each step in the chains of fields of a text, and each place by number after a call."""

        def chain(m):
            parts = m[0].split(".")
            out = [parts[0]]
            k = 1
            while k < len(parts):
                above = parts[k - 1]
                own = above in FIELDS or re.match(r"loop(-|\d|$)", above) or (k == 1 and above in plain)
                found = None
                if not own and parts[k] not in FIELDS:
                    for n in (3, 2, 1, 0):
                        key = (alike(parts[k]), *parts[k + 1: k + 1 + n])
                        if len(key) == n + 1 and key in to:
                            found = to[key]
                            k += n + 1
                            break
                if found:
                    out += found
                    continue
                if parts[k] in ("new", "last", "auto") and k + 1 < len(parts) and parts[k + 1] in "01":
                    n = k + 1
                    while n < len(parts) and parts[n] == "1":
                        n += 1
                    params = self.calls.get(bound.get(out[-1], out[-1]))
                    at = n - k - 1
                    if n < len(parts) and parts[n] == "0" and params and at < len(params):
                        out += ["new" if parts[k] == "last" else parts[k], params[at]]
                        k = n + 1
                        continue
                    self.notes.append(f"a place by number: {m[0]}")
                out.append(parts[k])
                k += 1
            return ".".join(out)

        return re.sub(r"(?:" + WORD + r"|(?<=\)))(?:\." + WORD + r")+", chain, text)

    def kept(self, text, is_answer):
        """Of a file whose helpers take the record of a place: a way back to a place stays, and in an answer begins one step further up."""
        way = r"((?:\.before)+)"
        if is_answer:
            text = re.sub(r"(?<![\w.'-])c" + way + r"?(?![\w.'-]|\.[^b ]|\.b(?!efore))", lambda m: "c.before" + (m[1] or ""), text)
            text = re.sub(r"(?<![\w.'-])c" + way + r"\.(?!before)", "c.", text)
        return text

    def types(self, text, module):
        """The record types of places, as this toolchain names them."""

        def place(m):
            old = m[1]
            found = self.place.get(old) if old in self.place else next((k for n, k in self.place.items() if alike(n) == alike(old)), None)
            if found is None:
                self.notes.append(f"no place {old}")
                return m[0]
            rest = " goal.the-invariant-" + self.made["loops"][0][0][1] + " goal.the-decreases-" + self.made["loops"][0][0][1] if m[2].strip() else ""
            return f"lts.{self.made['places'][found][0]} tie.the-claims reads.Pre reads.Post{rest} tie.handed_clauses"

        return re.sub(r"tie\.((?:After|At|In|Then|Else|Start)[\w-]*)((?: (?:invariant|decreases)-[\w-]+)*)", place, text)

    def body(self, text, place=None):
        if not self.keeps:
            text = re.sub(r"\.before(?![\w-])", "", text)
        text = re.sub(r"\.inv(?![\w-])", ".invariant", text)
        text = re.sub(r"\.pre(?![\w-])", ".requires", text)
        # the names bound to a step's values, whose fields are not steps
        plain = set(re.findall(r"let (" + WORD + r") = [^\n]*\.(?:args|new|auto|last|loop\d*|now|result) in\b", text))
        to = self.rules(place)
        bound = {}
        for m in re.finditer(r"let (" + WORD + r") = [^\n]*\.(" + WORD + r") in\b", text):
            new = to.get((alike(m[2]),), [""])[0]
            if new in self.calls:
                bound[m[1]] = new
        text = self.chains(text, to, plain, bound)
        for old, new in self.made["args"]:
            old, new = old.replace(" ", ""), new.replace(" ", "")
            text = re.sub(re.escape(old) + r"(?![\w'-])", new, text)
            if old.startswith(".args."):
                for name in plain:
                    text = re.sub(r"(?<![\w.'-])" + re.escape(name) + re.escape(old[5:]) + r"(?![\w'-])", name + new[5:], text)
        return text


def invariant(turn, block, made):
    """An invariant or a measure, in the new form."""
    m = re.search(r"(?m)^abbrev (?:pub )?((?:invariant|decreases)-(" + WORD + r")) : [^\n]*\n((?:unfolding [^\n]*\n)?)\1 ([^=]*?)=(?=\s)((?:.|\n)*)", block)
    if not m:
        return None
    loop = turn.loops.get(alike(m[2]))
    found = [(names, vs, made["changed"][k]) for k, (names, vs) in enumerate(made["loops"]) if names[1] == loop]
    if not found:
        turn.notes.append(f"no loop {m[2]}")
        return None
    (_, new), vs, changed = found[0]
    params = m[4].split()
    to = {}
    moving = [v for v, c in zip(vs, changed) if c]
    if len(params) == len(vs) + len(moving):
        for p, v, c in zip(params, vs, changed):
            to[p] = f"l.initial.{v}" if c else f"l.{v}"
        for p, v in zip(params[len(vs):], moving):
            to[p] = f"l.{v}"
    else:
        turn.notes.append(f"the variables of {m[1]} are others: {params} now {vs} {changed}")
        for p in params:
            to[p] = f"l.initial.{p[:-1]}" if p.endswith("₀") else f"l.{p}"
    text = m[5]

    def var(t):
        before = text[t.start() - 1] if t.start() else " "
        return t[0] if before == "." else to.get(t[0], t[0])

    kind = m[1].split("-")[0]
    head = block[: m.start()].strip()
    body = re.sub(WORD, var, text)
    # a field of a record that is written by name keeps its name
    body = re.sub(r"([{;]\s*)l\.(" + WORD + r") =", r"\1\2 =", body)
    lines = [head] if head else []
    lines += [f"abbrev pub {kind}-{new} : goal.{kind}-{new}", f"{kind}-{new} l ={body}"]
    return "\n".join(lines)


def turn_file(crate, folder, names, keep_all):
    path = os.path.join("crates", crate, "proofs", folder, "Proof.antt")
    with open(path, encoding="utf-8") as f:
        text = f.read()
    key = f"Rattle-{crate}-proofs.{folder.replace('/', '.')}.Lts"
    if key not in names:
        print(f"left: {path}: {key} is not among the names")
        return 1
    made = names[key]
    turn = Turn(made)
    turn.keeps = bool(re.search(r"tie\.(After|At|In|Then|Else|Start)", text))
    module = f"Rattle.{crate}.proofs.{folder.replace('/', '.')}"
    uses, answers, loops, left, first = [], [], [], [], ""
    for block in blocks(text):
        code = "\n".join(l for l in block.split("\n") if not l.startswith("--"))
        comment = "\n".join(l for l in block.split("\n") if l.startswith("--"))
        if code.startswith("use "):
            if comment:
                first = comment if not first else first + "\n" + comment
            if not re.search(re.escape(module) + r"\.(Statement|Tie)\b", code):
                uses.append(code)
            continue
        if not code.strip():
            first = first or comment
            continue
        if re.match(r"pub " + WORD + r"[-_]spec : ", code):
            continue
        if re.match(r"abbrev (pub )?(invariant|decreases)-", code):
            it = invariant(turn, block, made)
            if it:
                loops.append(it)
                continue
        m = re.match(r"(?:pub )?(" + WORD + r") : tie\.Need-(\S+)[^\n]*\n((?:unfolding [^\n]*\n)?)", code)
        if m:
            new = turn.needs.get(alike(m[2]))
            rest = code[m.end():]
            d = re.match(re.escape(m[1]) + r" ([^=\n]*?)\s*=(?=\s)", rest)
            if not new or not d:
                left.append(f"{m[1]} : {m[2]}")
                turn.notes.append(f"no goal for {m[2]}")
                if not new and d and rest[d.end():].strip() in EASY:
                    left.pop()
                    turn.notes.pop()
                continue
            body = rest[d.end():]
            params = [p for p in d[1].split() if p != "κs"]
            if body.strip() in EASY and not m[3] and not keep_all:
                continue
            if any(a[0] == new for a in answers):
                turn.notes.append(f"{new} would be answered twice")
            answers.append((new, comment + "\n" * bool(comment) + f"pub {new} : goal.{new}\n{m[3]}{new} {' '.join(params)} ={turn.body(turn.kept(body, True) if turn.keeps else body, turn.asked[new])}"))
            continue
        answers.append((None, turn.types(turn.body(block), module) if turn.keeps else turn.body(block)))
    head = (first + "\n") if first else ""
    where = os.path.dirname(path)
    for word, items, stem in (("Invariants", loops, "Given"), ("Answers", [a[1] for a in answers], "Goals")):
        if items:
            more = [f"use {module}.{it} as {it.lower()}" for it in ("Lts", "Tie", "Reads")] if turn.keeps and stem == "Goals" else []
            with open(os.path.join(where, word + ".antt"), "w", encoding="utf-8") as f:
                f.write(head + "\n".join(uses + [f"use {module}.{stem} as goal"] + more) + "\n\n" + "\n\n".join(items) + "\n")
    for note in turn.notes:
        print(f"look: {path}: {note}")
    if left:
        print(f"left: {path}: {', '.join(left)}")
    os.remove(path)
    if not os.listdir(where):
        os.rmdir(where)
    return bool(left)


def main(argv):
    keep_all = "--all" in argv
    known = next((a.split("=", 1)[1] for a in argv if a.startswith("--names=")), None)
    for crate in [a for a in argv if not a.startswith("--")]:
        names = names_of(crate, known)
        top = os.path.join("crates", crate, "proofs")
        n = bad = 0
        for folder, folders, files in os.walk(top):
            folders[:] = sorted(f for f in folders if f != "out")
            if "Proof.antt" in files:
                n += 1
                bad += turn_file(crate, os.path.relpath(folder, top), names, keep_all)
        print(f"{crate}: {n} files turned, {bad} with something left")
    return 0


if __name__ == "__main__":
    sys.exit(main(sys.argv[1:]))
