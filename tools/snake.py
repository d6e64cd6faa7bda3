#!/usr/bin/env python3
"""Gives this repository's own definitions, lemmas and fields the spelling of today's Rattle: words in snake case.

usage: tools/snake.py [--list]      once, at the top of the repository, after the toolchain's own port.py

A name is turned where it is declared in specs/ or proofs/ and is neither a type nor a module: `fromBytes` and `from-bytes` become `from_bytes`.
Names of src/, of the library and of what Rattle makes keep their spelling, as does what a Proof.antt declares for itself.
Two names of one file that would fall together are told, and nothing is written.
"""
import os
import re
import sys

WHOLE = {
    "codeTLBL": "code_tlbl", "codeTLBS": "code_tlbs", "codeAdEL": "code_adel", "codeAdES": "code_ades", "codeIBE": "code_ibe",
    "codeDBE": "code_dbe", "codeRI": "code_ri", "codeCpU": "code_cpu",
}
# A lemma that would fall together with the definition that it speaks of.
LEMMAS = {
    n: n.replace("-", "_") + "_lem"
    for n in (
        "good-image to-register in-ram put-entry timer-line paper-ticked clock-words core-ticked saved-ranged line-keeps machine-keeps clock-back "
        "tried-number ram-after store-part by-found transfer-keeps boom-keeps kept-fits ram-back mark-all device-word board-stored slot-after "
        "with-hi-lo with-cp0 with-pc clock-stored printer-ticked of-machine of-station small-words regs-back record-at all-fit is-at word-back "
        "load_part bytes_back lines_stored fit_of rows_back"
    ).split()
}
# The module that declares such a lemma, where its name is a word of another module too.
HOME = {
    "load_part": "Rattle.memory.proofs.Within",
    "bytes_back": "Rattle.disk.proofs.Given",
    "lines_stored": "Rattle.good.proofs.Device",
    "fit_of": "Rattle.restored.proofs.Fits",
    "rows_back": "Rattle.restored.proofs.Parts",
}
# A local name of one file.
LOCAL = {"crates/confined/proofs/Through.antt": {"by_row": "by_this_row"}}
# Parameters and local names that stand in many files.
LOCALS = "ofData lineIn besideAt deviceIn markIn besideThen partsThen pagesAt".split()
TOKEN = re.compile(r"[^\s(){}\[\].,;:λ]+")
HEAD = re.compile(r"^((?:(?:abbrev|unfoldable|pub|record|data|ruleset|syntax)\s+)*)([^\s:(){}\[\].,;λ]+)\s*(?=[:({]|\s)")
IMPORT = re.compile(r"\buse (Rattle\.(\w+)\.(?:specs|proofs)[\w.+'-]*)\.\{([^}]*)\}")
OTHER = re.compile(r"\buse ((?!Rattle\.)[\w.+'-]+|Rattle\.(?:std|core)\.[\w.+'-]*)\.\{([^}]*)\}")
WORDS = {"abbrev", "unfoldable", "pub", "record", "data", "ruleset", "syntax", "use", "unfolding", "module", "mod", "open", "let", "in"}


def turned(name):
    if name in WHOLE:
        return WHOLE[name]
    if name in LEMMAS:
        return LEMMAS[name]
    parts = []
    for part in name.split("-"):
        part = re.sub(r"(?<=[a-z0-9])(?=[A-Z])|(?<=[A-Z])(?=[A-Z][a-z])", "_", part)
        parts.append("_".join(w if w[:1].isupper() and is_type(name) else w.lower() if w.isascii() else w for w in part.split("_")))
    return "_".join(parts)


def is_type(name):
    return name[:1].isupper()


def wants(name):
    if is_type(name) or "◌" in name or name in WORDS:
        return False
    return bool(re.search(r"[a-z0-9][A-Z]", name)) or bool(re.search(r"\w-\w", name))


def read(path):
    with open(path, encoding="utf-8") as f:
        return f.read()


def is_made(path):
    return os.path.basename(path) == "Proof.antt"


def walk():
    for top, folders, names in os.walk("crates"):
        folders[:] = sorted(f for f in folders if f != "out")
        for name in sorted(names):
            yield os.path.join(top, name)


def declared(text):
    """The names that a file declares at its head column, and the fields and constructors of its records and data."""
    heads, fields = set(), set()
    inside = None
    depth = 0
    for line in text.split("\n"):
        bare = line.split("--", 1)[0] if line.lstrip().startswith("--") else line
        indent = len(bare) - len(bare.lstrip(" "))
        if bare.strip() and indent < depth:
            depth = indent // 2 * 2
        if re.match(r" *(pub )?module ", bare):
            depth = indent + 2
            continue
        if indent == depth:
            bare = bare[depth:]
        m = HEAD.match(bare)
        if m and not bare.startswith(" ") and m[2] not in WORDS and not m[2].startswith("--"):
            marks = m[1].split()
            inside = "record" if "record" in marks else "data" if "data" in marks else None
            if re.match(r"\s*(\{[^}]*\}\s*)*:", bare[m.end(2):]) or "ruleset" in marks:
                heads.add(m[2])
        elif inside and re.match(r"^ {2,6}\S", bare):
            f = re.match(r"^  (?:pub )?([^\s:(){}\[\].,;λ]+)\s*:", bare) or re.match(r"^ {4,6}pub ([^\s:(){}\[\].,;λ]+)\s*:", bare)
            if f:
                (fields if inside == "record" else heads).add(f[1])
        # a record or data on one line
        if inside == "record" and "where" in bare:
            for f in re.findall(r"(?:pub )([^\s:(){}\[\].,;λ]+)\s*:", bare.split("where", 1)[1]):
                fields.add(f)
    return heads, fields


def module_of(path):
    """crates/word/specs/Big.antt is Rattle.word.specs.Big."""
    parts = path[: -len(".antt")].split(os.sep)
    return "Rattle." + ".".join(parts[1:])


def names_in(listed):
    """The name and, where it is brought in under another one, that one."""
    for item in listed.split(","):
        words = item.split()
        if words:
            yield words[0], words[2] if len(words) == 3 and words[1] == "as" else words[0]


def turn(text, plain, fields):
    """Turns the whole tokens of `plain` that stand after no dot, and those of `fields` after one, before an `=`, a `:` or in `open .. use`."""
    out, at = [], 0
    for m in TOKEN.finditer(text):
        t = m[0]
        before = text[m.start() - 1] if m.start() else " "
        after = text[m.end():].lstrip(" ")[:1]
        to = None
        if before == ".":
            to = fields.get(t)
            if to is None and t in plain and re.search(r"(?:Rattle\.[\w.+'-]*|\b[A-Z]\w*)\.$", text[: m.start()][-80:]):
                to = plain[t]
        elif t in plain:
            to = plain[t]
        elif t in fields and (after in "=:" or re.search(r"use \{[^}]*$", text[: m.start()][-200:])):
            to = fields[t]
        if to:
            out += [text[at: m.start()], to]
            at = m.end()
    out.append(text[at:])
    return "".join(out)


def clauses(text):
    """The spans of a .rt file that are ghost: `ghost use` items, and the braces of requires, ensures, ghost members and decreases."""
    for m in re.finditer(r"ghost use [^;]*;", text):
        yield m.start(), m.end()
    for m in re.finditer(r"\b(?:requires|ensures|decreases|invariant|also_owns|also_shares|ghost)\b[^{};()]*\{", text):
        if text[m.start():].startswith("ghost use"):
            continue
        depth, i = 1, m.end()
        while depth and i < len(text):
            depth += {"{": 1, "}": -1}.get(text[i], 0)
            i += 1
        yield m.end(), i - 1


def main(argv):
    files = {p: read(p) for p in walk() if p.endswith((".antt", ".rt", ".edit"))}
    heads, all_fields, spoken = {}, set(), {}
    for p, t in files.items():
        if p.endswith(".antt") and not is_made(p):
            h, f = declared(t)
            heads[module_of(p)] = {n for n in h if wants(n) or HOME.get(n) == module_of(p)}
            spoken[module_of(p)] = h
            all_fields |= {n for n in f if wants(n)}
    everything = set().union(*heads.values())
    fields = {n: turned(n) for n in all_fields}
    if argv == ["--list"]:
        for n in sorted(everything | all_fields):
            print(n, turned(n))
        return 0
    words = {n for n in everything | all_fields if re.search(r"[a-z0-9][A-Z]", n)}
    bad, done = 0, {}
    for p, t in files.items():
        if p.endswith(".edit"):
            if re.search(r"^file: (specs|proofs)/", t, re.M):
                done[p] = turn(t, {n: turned(n) for n in everything - set(HOME)}, fields)
            else:
                done[p] = turn(t, {n: turned(n) for n in everything - set(HOME) if not re.search(r"\w-\w", n)}, {})
            continue
        plain = {}
        if p.endswith(".antt") and not is_made(p):
            plain = {n: turned(n) for n in heads[module_of(p)]}
        taken = set()
        for m in OTHER.finditer(t):
            taken |= {as_ for _, as_ in names_in(m[2])}
        for m in IMPORT.finditer(t):
            if m[2] in ("std", "core"):
                continue
            for name, as_ in names_in(m[3]):
                if (wants(name) or HOME.get(name) == m[1]) and name in everything:
                    plain[name] = turned(name)
        for n in taken & set(plain):
            if n not in heads.get(module_of(p) if p.endswith(".antt") else "", ()):
                del plain[n]
        plain.update(LOCAL.get(p, {}))
        if p.endswith(".antt"):
            plain.update({n: turned(n) for n in LOCALS if not re.search(r"(?<![\w.'-])" + turned(n) + r"(?![\w'-])", t)})
        # what falls together
        here = set(TOKEN.findall(re.sub(r"--[^\n]*", "", t)))
        seen = {}
        for n, to in plain.items():
            if to in seen:
                print(f"{p}: {n} and {seen[to]} fall together as {to}")
                bad += 1
            seen[to] = n
            bare = [m for m in re.finditer(r"(?<![\w.'-])" + re.escape(to) + r"(?![\w'-])", re.sub(r"--[^\n]*", "", t))]
            if bare and p.endswith(".antt") and to not in plain:
                print(f"{p}: {to}, which {n} becomes, stands there already")
                bad += 1
        for m in re.finditer(r"\buse (Rattle\.[\w.+'-]+) as ([\w'-]+)", t):
            for n in heads.get(m[1], ()):
                t = re.sub(r"(?<![\w.'-])(" + re.escape(m[2]) + r"\.)" + re.escape(n) + r"(?![\w'-])", lambda it, n=n: it[1] + turned(n), t)
        t = re.sub(r"(Rattle\.[\w.+'-]+)\.([\w'-]+)(?![\w.'-])", lambda it: f"{it[1]}.{turned(it[2])}" if it[2] in heads.get(it[1], ()) else it[0], t)
        t = re.sub(r"(?m)(?:--|//).*$", lambda it: re.sub(r"`([\w'-]+)`", lambda n: "`" + (turned(n[1]) if n[1] in words else n[1]) + "`", it[0]), t)
        if p.endswith(".antt"):
            done[p] = turn(t, plain, fields)
        else:
            out, at = [], 0
            for a, b in sorted(clauses(t)):
                if a < at:
                    continue
                out += [t[at:a], turn(t[a:b], plain, fields)]
                at = b
            done[p] = "".join(out) + t[at:]
    if bad and argv != ["--anyway"]:
        print(f"{bad} names fall together: nothing is written")
        return 1
    n = 0
    for p, t in done.items():
        if t != files[p]:
            n += 1
            with open(p, "w", encoding="utf-8") as f:
                f.write(t)
    print(f"{n} files turned")
    return 0


if __name__ == "__main__":
    sys.exit(main(sys.argv[1:]))
