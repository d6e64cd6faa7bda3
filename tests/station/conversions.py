"""conversions.py - stations of the version before: told of, converted, and the old
save kept; damaged ones, and a fault or a kill at every system call. Those of the
first version are refused. The folder version2 here is a station that lavushmir 0.8
saved; all others are made from ones of this version by docs/RECORD.md."""
import fcntl, os, shutil, subprocess
from concurrent.futures import ThreadPoolExecutor

import damage
from folders import get, put, tree
from program import B, CHECKED, PLAIN, ok, one_line, run
from stations import NAMES, SMALL, clock, make, state

KILLED, DAMAGES, DICE = 77, 160, 60
FIRST, OLD, NEW, ON_HAND = 501, 509, 741, 5 + 4 * 122
SLOTS = 5  # odd, so that the old journal is no whole number of this version's records
MOST = 32768
TELLS = "was saved by an earlier version", "lavushmir --convert STATION"
TELLS_FIRST = "was saved by the first version", "nothing was written", "lavushmir 0.8"
MODES = ("EIO", "sticky", "lie", "before", "after")
INDEXED = (True, False)  # version 2 was saved with an index, and before request L6 without
REAL = os.path.join(os.path.dirname(os.path.abspath(__file__)), "version2")


def old_image(image):
    """What version 2 would have saved: length word 505, version 2, and the first 126 words."""
    return (505).to_bytes(4, "big") + b"\2" + image[5:OLD]


def first_image(image):
    """The same of version 1: length word 497, and 124 words."""
    return (497).to_bytes(4, "big") + b"\1" + image[5:FIRST]


def converted(image):
    """What a conversion makes of an old image: length word 737, version 3, nothing on hand, next slot 0, 58 words of 0."""
    return (737).to_bytes(4, "big") + b"\3" + image[5:ON_HAND] + bytes(8) + image[ON_HAND + 8:] + bytes(4 * 58)


def old_record(record, is_indexed):
    """What version 2 would have written: the kind with its words in front of the printers, and one word of 0
    behind. From before the index a record of kind 3 (a word of RAM) has no distance."""
    kind = record[236:252] if is_indexed or record[236:240] != b"\3\0\0\0" else record[236:248] + bytes(4)
    assert not any(record[252:]), "words 63 to 127"
    return record[:76] + kind + record[76:236] + bytes(4)


def old_journal(journal, is_indexed):
    return b"".join(old_record(journal[i:i + 512], is_indexed) for i in range(0, len(journal), 512))


def put_save(s, gen, **files):
    """Files in a save, with sums and current as if it had been saved so. An index of None is none."""
    folder = "%s/%s" % (s, gen)
    for name, data in files.items():
        if data is not None:
            put("%s/%s" % (folder, name), data)
        elif os.path.exists("%s/%s" % (folder, name)):
            os.unlink("%s/%s" % (folder, name))
    names = [n for n in NAMES if os.path.exists("%s/%s" % (folder, n))]
    put(folder + "/sums", subprocess.check_output(["cksum", *names], cwd=folder))
    if get(s + "/current").split()[0].decode() == gen:
        total = subprocess.check_output(["cksum", "sums"], cwd=folder).split()[:2]
        put(s + "/current", b" ".join([gen.encode(), *total]) + b"\n")


def make_slots(s, slots, *runs):
    return make(s, *runs, words=SMALL[:6] + (str(slots),) + SMALL[7:])


def make_old(s, is_indexed, slots=SLOTS):
    """A station of version 2, with the saves 2 and 3, 3 in force."""
    make_slots(s, slots, 10, 20)
    for gen in ("2", "3"):
        image, journal, index = (get("%s/%s/%s" % (s, gen, n)) for n in ("image", "journal", "index"))
        put_save(s, gen, image=old_image(image), journal=old_journal(journal, is_indexed),
                 index=index if is_indexed else None)
    return s


def wanted(before):
    """The state that a conversion of `before` has to leave: as many slots and no record in them, and no step on hand."""
    slots = min(len(before["journal"]) // 256, MOST)
    return dict(before, image=converted(before["image"]), journal=bytes(512 * slots),
                index=bytes(len(before["ram"]) // 256))


def save_3(s):
    return {n: get("%s/3/%s" % (s, n)) for n in os.listdir(s + "/3")}


def told(folder, is_indexed):
    """Without the option: one line that names it, and nothing is written, whatever is asked for."""
    s, new = make_old(B + "/told", is_indexed), make(B + "/told-new")
    kept = tree(s)
    ways = (("info", "clocks"), ("run", "1"), ("save",), ("restore",), ("quit",), ())
    for args in ways:
        r = run(s, *args, stdin=b"run 1\n", folder=folder)
        one_line(r, 3, *TELLS)
        assert r[1] == b"" and tree(s) == kept, (args, r)
    one_line(run(new, "compare", s, folder=folder), 3, *TELLS)
    assert tree(s) == kept
    shutil.rmtree(s), shutil.rmtree(new)
    return len(ways) + 1


def goes_on(s, folder):
    """What was converted at clock 30 runs and goes back as a machine that was never saved."""
    fresh = make_slots(B + "/fresh", SLOTS, 37)
    ok(s, "run", "7", folder=folder)
    got, want = state(s), state(fresh)
    assert got["ram"] == want["ram"] and got["image"][:ON_HAND + 4] == want["image"][:ON_HAND + 4]
    ok(s, "back", str(SLOTS), folder=folder)
    ok(s, "run", str(SLOTS), folder=folder)
    # but for the distances of its records: those to steps that were not on hand any more are 0
    assert dict(state(s), journal=b"") == dict(got, journal=b"") and any(got["index"])
    ok(s, "back", "4", folder=folder)
    assert clock(s) == 33 and len(state(s)["image"]) == NEW
    shutil.rmtree(fresh)


def done(folder, is_indexed):
    """Converted once, and the old save is kept; converted again, nothing is written."""
    s = make_old(B + "/done", is_indexed)
    before, kept = state(s), save_3(s)
    assert ("index" in before) == is_indexed and before["image"][ON_HAND + 3] == SLOTS and any(before["journal"])
    want = wanted(before)
    said = ok("--convert", s, folder=folder)
    assert said.count(b"\n") == 1 and b"without a step on hand" in said, said
    assert state(s) == want and save_3(s) == kept and sorted(os.listdir(s))[:2] == ["3", "4"]
    after = tree(s)
    assert b"already" in ok("--convert", s, folder=folder) and tree(s) == after
    one_line(run(s, "restore", folder=folder), 3, "of an earlier version", "--convert")
    assert tree(s) == after
    r = run(s, "back", "1", folder=folder)
    assert r[0] == 1 and tree(s) == after, r
    ok("--restore", s, folder=folder)
    assert state(s) == before
    one_line(run(s, "info", "clocks", folder=folder), 3, *TELLS)
    ok("--convert", s, folder=folder)
    assert state(s) == want
    goes_on(s, folder)
    shutil.rmtree(s)
    return 13


def real(folder):
    """The station that the program before this one saved: it is what the ones made here are, and is converted as they are."""
    s, made = B + "/real", make_old(B + "/made", True)
    shutil.copytree(REAL, s)
    before, kept = state(s), save_3(s)
    assert before == state(made) and before["image"][ON_HAND + 3] == SLOTS
    one_line(run(s, "info", "clocks", folder=folder), 3, *TELLS)
    ok("--convert", s, folder=folder)
    assert state(s) == wanted(before) and save_3(s) == kept
    goes_on(s, folder)
    shutil.rmtree(s), shutil.rmtree(made)
    return 6


def first(folder):
    """A station of the first version: one line that says what to do, and nothing is written."""
    s, new = make_old(B + "/first", False), make(B + "/first-new")
    put_save(s, "3", image=first_image(get(s + "/3/image")))
    kept = tree(s)
    for args in (("--convert", s), (s, "info", "clocks"), (s, "run", "1"), (s,)):
        r = run(*args, stdin=b"run 1\n", folder=folder)
        one_line(r, 3, *TELLS_FIRST)
        assert r[1] == b"" and tree(s) == kept, (args, r)
    one_line(run(new, "compare", s, folder=folder), 3, *TELLS_FIRST)
    assert tree(s) == kept
    shutil.rmtree(s), shutil.rmtree(new)
    return 5


def slots(folder):
    """Journals of no slot, one, the most, and more of the old ones than this version has."""
    for made, had in ((0, 0), (1, 1), (MOST, MOST), (MOST, MOST + 1), (MOST, 2 * MOST)):
        s = make_old(B + "/slots", True, made)
        put_save(s, "3", journal=get(s + "/3/journal") + bytes(256 * (had - made)))
        want = wanted(state(s))
        said = ok("--convert", s, folder=folder)
        assert (b"room for 32,768 steps" in said) == (had > MOST), (had, said)
        assert state(s) == want and len(want["journal"]) == 512 * min(had, MOST), had
        ok(s, "run", "7", folder=folder)
        ok(s, "back", str(min(had, 7)), folder=folder)
        assert clock(s) == 37 - min(had, 7), had
        shutil.rmtree(s)
    return 15


def refused(folder, is_indexed):
    """What is whole by its sums, but is of no version or does not fit; no station, or one that is held."""
    s = make_old(B + "/refused", is_indexed)
    good, ram, journal = (get("%s/3/%s" % (s, n)) for n in ("image", "ram", "journal"))
    bad = [good[:4] + bytes([v]) + good[5:] for v in (0, 1, 3, 255)]
    bad += [good[:-1], good + b"\0", b"", bytes(len(good))]
    bad += [good[:k + 3] + bytes([v]) + good[k + 4:] for k, v in ((ON_HAND, SLOTS + 1), (ON_HAND + 4, SLOTS))]
    tries = [({"image": image}, "keeps neither") for image in bad]
    tries += [({"journal": journal[:-256]}, "keeps neither"), ({"journal": journal + bytes(128)}, "journal is over")]
    tries += [({"ram": r}, "RAM is not 1 to 4,096 whole frames") for r in (ram[:-1], ram + b"\0", b"")]
    for files, what in tries:
        put_save(s, "3", **files)
        kept = tree(s)
        one_line(run("--convert", s, folder=folder), 3, what, "nothing was written", "--restore STATION")
        assert tree(s) == kept
        put_save(s, "3", image=good, ram=ram, journal=journal)
    fd = os.open(s, os.O_RDONLY)
    fcntl.flock(fd, fcntl.LOCK_EX)
    kept = tree(s)
    one_line(run("--convert", s, folder=folder), 4, "in use by another program")
    assert tree(s) == kept
    os.close(fd)
    one_line(run("--convert", B + "/nothing", folder=folder), 3, "cannot be opened as a station")
    for args in (("--convert",), ("--convert", s, s)):
        assert run(*args, folder=folder)[0] == 2 and tree(s) == kept
    shutil.rmtree(s)
    return len(tries) + 4


def damaged(i, base):
    s = "%s/old-damaged-%d" % (B, i)
    kind, name, user = damage.damage(i, base, s)
    before = tree(s)
    res = run("--convert", s, folder=CHECKED if i % 10 == 0 else PLAIN, user=user)
    one_line(res, 3)
    assert res[1] == b"" and tree(s) == before, (i, kind, name)
    damage.remove(s)
    return kind


def fault(job):
    mode, n, base, old, new, kept = job
    s = "%s/old-fault-%s-%d" % (B, mode, n)
    shutil.copytree(base, s)
    r = run("--convert", s, shim=mode, n=n, folder=CHECKED if n % 10 == 0 else PLAIN)
    assert r[0] in (0, KILLED if mode in ("before", "after") else 3), (job[:2], r)
    assert r[2].count("\n") <= 2 and (r[0] != 3 or r[2].startswith("lavushmir: ")), (job[:2], r)
    got = state(s)
    assert got == new if r[0] == 0 else got in (old, new), (job[:2], r)
    assert save_3(s) == kept, (job[:2], r)  # the old save is whole after every one of them
    again = ok("--convert", s)  # and the next conversion is in order
    assert (b"already" in again) == (got == new) and state(s) == new, (job[:2], again)
    shutil.rmtree(s)
    return r[0], got == new


def faults(base, is_indexed):
    s, log = B + "/old-count", B + "/old-count.log"
    shutil.copytree(base, s)
    ok("--convert", s, shim="count", log=log)
    calls = int(get(log).splitlines()[-1].split(b"\t")[1])
    old, kept = state(base), save_3(base)
    modes = MODES if is_indexed else MODES[:1] + MODES[3:4]
    jobs = [(m, k, base, old, wanted(old), kept) for m in modes for k in range(1, calls + 1)]
    with ThreadPoolExecutor(2) as pool:
        got = list(pool.map(fault, jobs))
    shutil.rmtree(s), os.unlink(log)
    met = [sum(g[0] == k for g in got) for k in (0, 3, KILLED)]
    news = sum(g[1] for g in got)
    assert all(met) and 0 < news < len(got)
    return "%s an index: %d system calls, %d faults (%d said done, %d said trouble, %d killed); then %d new states, %d old" % (
        "with" if is_indexed else "without", calls, len(got), *met, news, len(got) - news)


def by_dice(base):
    """The C side beside a call that answers by dice: what is refused is not saved, and all else is."""
    met = [0, 0]
    for seed in range(1, DICE + 1):
        s = B + "/old-dice"
        shutil.copytree(base, s)
        before = state(s)
        p = subprocess.run([B + "/any", "--convert", s], capture_output=True, timeout=120,
                           env=dict(os.environ, ANY_SEED=str(seed), ASAN_OPTIONS="detect_leaks=0"))
        refuses = p.returncode == 3
        assert p.returncode in (0, 3) and p.stderr.count(b"\n") == refuses, (seed, p)
        got, want = state(s), before if refuses else wanted(before)
        assert len(got["image"]) == len(want["image"]) and dict(got, image=b"") == dict(want, image=b""), (seed, p)
        met[refuses] += 1
        shutil.rmtree(s)
    assert all(met), met
    return "%d by dice (%d refused)" % (sum(met), met[1])


def main():
    total = sum(part(folder, is_indexed) for is_indexed in INDEXED for folder in (PLAIN, CHECKED)
                for part in (told, done, refused))
    total += sum(part(folder) for folder in (PLAIN, CHECKED) for part in (real, first)) + slots(PLAIN)
    bases = [make_old("%s/old-base-%d" % (B, is_indexed), is_indexed) for is_indexed in INDEXED]
    with ThreadPoolExecutor(2) as pool:
        kinds = list(pool.map(lambda i: damaged(i, bases[i % 3 == 0]), range(DAMAGES)))
    dice = " and ".join(by_dice(base) for base in bases)
    faulty = [faults(*job) for job in zip(bases, INDEXED)]
    for base in bases:
        shutil.rmtree(base)
    print("conversions: %d sessions, on the plain and the checked build; %d damaged stations of %d kinds; %s"
          % (total, len(kinds), len(set(kinds)), dice))
    for line in faulty:
        print("conversions: " + line)
