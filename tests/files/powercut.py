"""powercut.py - what a power cut leaves, from the recorded order of calls.

A disk that keeps only what POSIX promises: the bytes of a file after fsync of
the file, the names in a folder after fsync of the folder. Anything later may
or may not be there, in any combination, but each rename is one step.
1. rule: at a rename nothing in that folder and below it is without its fsync,
   but the name that is renamed; nothing is opened for writing unless it is
   new; nothing old is removed until the rename itself has been fsynced.
2. cuts: after each call, the least, the most and random in-between disks are
   built as real folders and loaded: the old or the new state, nothing else.
3. mutants: with any one fsync left out, 1 must complain."""
import os, random, shutil

WRITES, CREATES = 3, 0o300  # O_WRONLY|O_RDWR; O_CREAT|O_EXCL


class File:
    def __init__(self, data=b""):
        self.live = self.safe = data


class Folder:
    def __init__(self):
        self.live, self.safe, self.pending = {}, {}, []

    def do(self, op):
        """op: (name to drop or None, name to set or None, node)"""
        self.live = step(self.live, op)
        self.pending.append(op)

    def sync(self):
        self.safe, self.pending = dict(self.live), []


def step(names, op):
    drop, add, node = op
    names = {k: v for k, v in names.items() if k != drop}
    if add:
        names[add] = node
    return names


def scan(path):
    node = Folder()
    for e in os.scandir(path):
        node.live[e.name] = scan(e.path) if e.is_dir() else File(open(e.path, "rb").read())
    node.sync()
    return node


def calls(log):
    lines = iter(open(log).read().splitlines())
    for line in lines:
        call, a, b, extra = line.split("\t")
        yield call, a, b, int(extra or 0), bytes.fromhex(next(lines)) if call == "write" else b""


class Disk:
    def __init__(self, top):
        self.top, self.root, self.broken, self.renamed = top, scan(top), [], None

    def find(self, path):
        node = self.root
        for part in os.path.relpath(path, self.top).split("/"):
            node = node if part == "." else node.live[part]
        return node

    def dirty(self, node, path=""):
        if isinstance(node, File):
            return [path] if node.live != node.safe else []
        out = [path + "/"] if node.pending else []
        return out + [d for n, c in node.live.items() for d in self.dirty(c, path + "/" + n)]

    def apply(self, call, a, b, extra, data):
        if not a.startswith(self.top) or call in ("calls", "killed"):
            return
        parent, name = os.path.split(a)
        if call == "open" and extra & WRITES:
            if extra & CREATES != CREATES:
                self.broken.append("written in place: " + a)
            f = File()
            f.safe = None  # nothing is promised, not even that it is empty
            self.find(parent).do((None, name, f))
        elif call == "write":
            self.find(a).live += data
        elif call == "mkdir":
            self.find(parent).do((None, name, Folder()))
        elif call == "unlink":
            if self.rename_pending():
                self.broken.append("removed before the rename is safe: " + a)
            self.find(parent).do((name, None, None))
        elif call == "rename":
            here = self.find(parent)
            late = [d for c in here.live for d in self.dirty(here.live[c], c)]
            late += [str(op[:2]) for op in here.pending if name not in op[:2]]
            self.broken += ["not fsynced at the rename of %s: %s" % (name, d) for d in late]
            self.find(parent).do((name, os.path.basename(b), self.find(a)))
            self.renamed = parent
        elif call == "fsync":
            node = self.find(a)
            if isinstance(node, Folder):
                node.sync()
            else:
                node.safe = node.live

    def rename_pending(self):
        return self.renamed and any(op[1] for op in self.find(self.renamed).pending)

    def finish(self):
        """When the call has returned SF_OK the rename must be on the disk."""
        if self.rename_pending():
            self.broken.append("returned before the rename is safe")
        return self.broken


def build(node, path, pick):
    """Make a real folder or file of what the cut may have left."""
    if isinstance(node, File):
        data = node.live
        if node.safe != node.live:
            cut = pick(len(data) + 1)
            data = data[:cut] + bytes(pick(2) * (len(data) - cut))
        open(path, "wb").write(data)
        return
    os.mkdir(path)
    names = dict(node.safe)
    for op in node.pending:
        if pick(2):
            names = step(names, op)
    for n, c in names.items():
        build(c, path + "/" + n, pick)


def record(t, what, n, args, base):
    top = "%s/cut-%s-%d" % (t.B, what, n)
    log = top + ".log"
    os.mkdir(top)
    if base:
        shutil.copytree(base, top + "/s")
    disk = Disk(top)
    t.ok(what, top + "/s", *args, shim="drop" if n else "log", n=n, log=log)
    done = list(calls(log))
    os.unlink(log)
    shutil.rmtree(top)
    return disk, done


def cuts(t, what, args, base, states):
    disk, done = record(t, what, 0, args, base)
    r, seen, count = random.Random(7), {}, 0
    for call in [("calls", "", "", 0, b"")] + done:
        disk.apply(*call)
        if call[0] == "open" and not call[3] & WRITES:
            continue
        for pick in [lambda n: 0, lambda n: n - 1] + [lambda n: r.randrange(n)] * 4:
            d = "%s/disk" % t.B
            build(disk.root, d, pick)
            if what == "create" and not os.path.exists(d + "/s"):
                got = "none"
            else:
                got = t.ok("load", d + "/s", shim="fast")
            shutil.rmtree(d)
            assert got in states, (what, call[:3], got)
            seen[got] = seen.get(got, 0) + 1
            count += 1
    assert disk.finish() == [], disk.broken
    assert len(seen) == 2, seen  # both states must really have been met
    return count, sum(c[0] == "fsync" for c in done)


def main(t):
    base, total, noticed, spare = t.B + "/base", 0, 0, 0
    old = t.ok("load", base)
    for what, args, b, states in (("save", (6,), base, (old, t.STATE[6])),
                                  ("restore", (), base, (old, t.STATE[2])),
                                  ("create", (3,), None, ("none", t.STATE[3]))):
        count, syncs = cuts(t, what, args, b, states)
        total += count
        missed = []
        for n in range(1, syncs + 1):
            disk, done = record(t, what, n, args, b)
            for call in done:
                disk.apply(*call)
            if not disk.finish():
                missed.append(n)
        # In a create the folder of the ROMs is fsynced again by the commit.
        assert len(missed) == (what == "create"), (what, missed)
        noticed, spare = noticed + syncs - len(missed), spare + len(missed)
    print("power cuts: the order rule holds; %d disks loaded, each old or new; "
          "a left-out fsync is noticed %d times of %d (1 is spare)" % (total, noticed, noticed + spare))
