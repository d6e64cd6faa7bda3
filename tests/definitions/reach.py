#!/usr/bin/env python3
"""Holds README's table of definitions to what the public calls' statements reach.

    tests/definitions/reach.py [ROOT]

Reads every crates/*/specs/*.antt, follows each name that a definition uses to the definition of that name, from the
statements in STATEMENTS on, and compares what is reached with README's table "Reading the definitions". It fails on
  - a file with a definition that is reached, to which no row leads (a reader would not find what must be believed);
  - a row that names a definition that is not reached (idle), or names none;
  - a statement that is nowhere;
  - a definition that is reached and stands below the line AIDS of its file, or is not reached and stands above it: what must be
    believed stands apart from aids to the proofs of the code.
ROOT is the repository.
"""
import os
import re
import sys

# What the public calls and the theorems over them state. Everything that a reader must believe is reached from here.
STATEMENTS = [
    "run_leaves", "back_leaves", "reset_answer", "reset_image", "reset_index", "last_write_answer", "last_write_bytes",
    "rom_answer", "window_of", "packed_of",
    "ResetIs", "ConvertIs", "LastWriteIs", "buffers_of", "buffers_back",
    "PackedResetIs", "PackedConvertIs", "PackedIs", "PackedLastWriteIs", "Unchanged",
    "Booted", "demand3.called_all", "TakesBack", "demand3.index_of", "marked",
    "Claim", "EachClaim", "RunClaim",
    "SlotTold", "KeepsBranch", "reads_of", "Agree",
    "last_change_of", "newest_at_of", "oldest_at_of", "Tells", "pcs_ago", "ago_in", "TellsLast",
    "isa.encode_of", "isa.Proper",
    "remote.heard_of", "remote.told_of", "remote.Within", "remote.Says",
    # the disks of document 02, L4, which no call reaches before the step has them
    "disks.ticked_of", "disks.command_of", "disks.data_of", "disks.line_keeps", "disks.shown_of", "disks.note_of", "disks.note_words",
    "disks.undo_of", "disks.undo_word", "disks.word_of", "disks.kepts_in", "disks.line_in", "disks.disk_words", "disks.eight", "disk.reset_of", "disk.size_keeps", "disk.kept_fits", "disk.kept_from",
    "command.command_of", "text.number_of", "text.Laid", "text.decimal_of", "text.grouped_of", "text.signed_of", "text.hex_of",
    # what is read from an image, and what the words of a session with gdb number
    "image.word_of", "image.register_of", "image.clock_of", "image.entry_of", "image.printer_of",
    "stub.mode_number", "stub.mode_of", "stub.signal_number", "stub.line_number", "stub.line_of",
    # what a turn of a session leaves of what it was lent
    "image.StaysLent", "image.IsSeen",
]

# Below this line a file has aids to the proofs of the code. A file of nothing else begins with it.
AIDS = "-- ---- aids to proofs: nothing that a reader must believe"

NAME = r"[^\s(){}\[\],.;:=`\"]+"
HEAD = re.compile(r"^\s*(?:(?:abbrev|unfoldable|opaque)\s+)?pub\s+(" + NAME + r")\s+:\s")
TYPE = re.compile(r"^\s*pub\s+(?:data|record)\s+(" + NAME + r")")
USE = re.compile(r"^use\s+(\S+?)\.\{(.*)\}\s*$")
USE_AS = re.compile(r"^use\s+(\S+)\s+as\s+(\S+)\s*$")
TOKEN = re.compile(r"[^\s(){}\[\],;`\"]+")


class Module:
    """One file of definitions: what it brings in, and the text of each definition."""

    def __init__(self, crate, name, path):
        self.crate, self.name, self.path = crate, name, path
        self.brought = {}  # local name -> (module key, name there)
        self.nicknames = {}  # local name of a module -> module key
        self.texts = {}
        self.aids = set()  # the definitions below the line AIDS
        self.read()

    def key_of(self, path):
        """The module that a path of a `use` names, as (crate, file), or None where it is not a definition of the project."""
        found = re.match(r"^Rattle\.([a-z_0-9]+)\.specs\.(.+)$", path)
        return (found.group(1), found.group(2)) if found and found.group(1) not in ("std", "core") else None

    def read(self):
        current, deep, whole = None, 0, False  # the definition at hand, its indent, and whether it is a type, whose fields are part of it
        below = False
        for line in open(self.path, encoding="utf-8"):
            below = below or line.rstrip("\n") == AIDS
            line = re.sub(r"(^|\s)--.*$", "", line.rstrip("\n"))
            if not line.strip() or self.brings(line):
                continue
            indent = len(line) - len(line.lstrip())
            inside = whole and indent > deep
            head = None if inside else TYPE.match(line) or HEAD.match(line)
            if head:
                current, deep, whole = head.group(1), indent, head.re is TYPE
                self.texts.setdefault(current, "")
                if below:
                    self.aids.add(current)
            elif line.startswith("module "):
                current, whole = None, False
            if current:
                self.texts[current] += line + "\n"

    def brings(self, line):
        """Takes in a `use`; whether the line was one."""
        used, named = USE.match(line), USE_AS.match(line)
        key = self.key_of((used or named).group(1)) if used or named else None
        if used and key:
            for name in used.group(2).split(","):
                self.brought[name.strip()] = (key, name.strip())
        if named and key:
            self.nicknames[named.group(2)] = key
        return line.startswith("use ") or line.startswith("pub mod ")


def modules_of(root):
    found = {}
    crates = os.path.join(root, "crates")
    for crate in sorted(os.listdir(crates)):
        specs = os.path.join(crates, crate, "specs")
        for folder, _, files in os.walk(specs):
            for file in files:
                if file.endswith(".antt") and file != "Lib.antt":
                    path = os.path.join(folder, file)
                    name = os.path.relpath(path, specs)[: -len(".antt")].replace(os.sep, ".")
                    found[(crate, name)] = Module(crate, name, path)
    return found


def used_by(module, name, modules):
    """The definitions that a definition's text names."""
    for token in set(TOKEN.findall(module.texts[name])):
        token = token.strip(":")
        if token in module.texts and token != name:
            yield (module.crate, module.name), token
        elif token in module.brought:
            yield module.brought[token]
        elif "." in token:
            first, _, rest = token.partition(".")
            if first in module.texts and first != name:
                yield (module.crate, module.name), first
            elif first in module.brought:
                yield module.brought[first]
            elif first in module.nicknames and rest:
                yield module.nicknames[first], rest.split(".")[0]


def reached_from(statements, modules):
    todo = [(key, name) for key, module in modules.items() for name in module.texts if {name, f"{key[0]}.{name}"} & set(statements)]
    missing = {s for s in statements if not any(s in (name, f"{key[0]}.{name}") for key, name in todo)}
    seen = set()
    while todo:
        key, name = todo.pop()
        if (key, name) in seen or key not in modules or name not in modules[key].texts:
            continue
        seen.add((key, name))
        todo.extend(used_by(modules[key], name, modules))
    return seen, missing


def misplaced_in(modules, reached):
    """The definitions on the wrong side of the line AIDS, as (crate, file, name, whether it is reached)."""
    for (crate, file), module in sorted(modules.items()):
        for name in module.texts:
            is_reached = (crate, file, name) in reached
            if is_reached == (name in module.aids):
                yield crate, file, name, is_reached


def rows_of(readme, modules):
    """The definitions that the table names, as (crate, file, name), and cells that name none."""
    text = open(readme, encoding="utf-8").read()
    start = text.index("## Reading the definitions")
    rows, empty = set(), []
    for line in text[start:].split("\n"):
        if not line.startswith("|") or line.startswith("|---") or line.startswith("| Document 01 |"):
            continue
        cell = line.rstrip("|").rsplit("|", 1)[1]
        crate = file = None
        named = 0
        for word in re.findall(r"`[^`]*`|[^\s,;]+", cell):
            place = re.match(r"^`([a-z_0-9]+)/(?:specs|proofs)/((?:[A-Za-z0-9]+/)*)([A-Za-z0-9]*)(?:\.antt)?`$", word)
            if place:
                crate = place.group(1)
                file = (place.group(2).replace("/", ".") + place.group(3)).strip(".") or None
            elif crate and (crate, word) in modules:
                file = word
            elif crate and file and (crate, file) in modules and word in modules[(crate, file)].texts:
                rows.add((crate, file, word))
                named += 1
        if not named:
            empty.append(line.strip())
    return rows, empty


def main():
    root = sys.argv[1] if len(sys.argv) > 1 else os.path.join(os.path.dirname(os.path.abspath(__file__)), "..", "..")
    modules = modules_of(root)
    seen, gone = reached_from(STATEMENTS, modules)
    reached = {(key[0], key[1], name) for key, name in seen}
    rows, empty = rows_of(os.path.join(root, "README.md"), modules)
    files = {(crate, file) for crate, file, _ in reached}
    missing = files - {(crate, file) for crate, file, _ in rows}
    for name in sorted(gone):
        print(f"definitions: the statement {name} is nowhere in specs/")
    for crate, file in sorted(missing):
        names = ", ".join(sorted(n for c, f, n in reached if (c, f) == (crate, file)))
        print(f"definitions: no row of README's table leads to {crate}/specs/{file}.antt ({names})")
    for crate, file, name in sorted(rows - reached):
        print(f"definitions: README's table has {crate}/specs/{file}.antt {name}, which no statement reaches")
    misplaced = list(misplaced_in(modules, reached))
    for crate, file, name, is_reached in misplaced:
        why = "is reached and stands among the aids" if is_reached else "is not reached and does not stand among the aids"
        print(f"definitions: {crate}/specs/{file}.antt {name} {why}")
    for line in empty:
        print(f"definitions: this row names no definition: {line[:100]}")
    print(f"definitions: {len(reached)} in {len(files)} files are reached from {len(STATEMENTS)} statements; README's table names {len(rows)}")
    aids = sum(len(module.aids) for module in modules.values())
    print(f"definitions: {aids} aids to proofs stand apart from them")
    return 1 if gone or missing or rows - reached or empty or misplaced else 0


if __name__ == "__main__":
    sys.exit(main())
