"""faults.py - a fault or a kill at every system call of a save: the old or the
new state, whole. shim.so is tests/files/shim.c, and says what its modes do."""
import os, shutil
from concurrent.futures import ThreadPoolExecutor

from folders import get
from program import B, CHECKED, PLAIN, run
from stations import SMALL, make, state

KILLED = 77
SAVES = {  # words, and the faults that are tried at each call
    "run": (("run", "30"), ("EIO", "sticky", "lie", "before", "after")),
    "restore": (("restore",), ("EIO", "before")),
    "new": (SMALL, ("EIO", "sticky", "before", "after")),
}


def calls(args, s):
    log = s + ".log"
    r = run(s, *args, shim="count", log=log)
    assert r[0] == 0, r
    n = int(get(log).splitlines()[-1].split(b"\t")[1])
    os.unlink(log)
    return n


def one(job):
    what, mode, n, base, old, new = job
    s = "%s/fault-%s-%s-%d" % (B, what, mode, n)
    if base:
        shutil.copytree(base, s)
    r = run(s, *SAVES[what][0], shim=mode, n=n, folder=CHECKED if n % 10 == 0 else PLAIN)
    assert r[0] in (0, KILLED if mode in ("before", "after") else 3), (job, r)
    assert r[0] != 3 or r[2].startswith("lavushmir: "), (job, r)
    assert r[2].count("\n") <= 2, (job, r)
    got = state(s) if os.path.lexists(s) else None
    assert got == new if r[0] == 0 else got in (old, new), (job, r)
    if got and n % 4 == 0:  # the program has nothing against what is left, and its next save is in order
        r2 = run(s, "run", "1")
        assert r2[0] == 0 and r2[2] == "" and state(s)["image"] != got["image"], (job, r2)
    for left in os.listdir(B):
        if left.startswith(os.path.basename(s) + ".new-"):
            assert r[0] != 0, (job, left)
            shutil.rmtree(B + "/" + left)
    if os.path.lexists(s):
        shutil.rmtree(s)
    return r[0], got == new


def main():
    base, jobs, counts = make(B + "/base", 10, 20), [], []
    for what, (args, modes) in SAVES.items():
        s = B + "/count-" + what
        old, here = None, None
        if what != "new":
            shutil.copytree(base, s)
            old, here = state(base), base
        n = calls(args, s)
        counts.append("%s %d" % (what, n))
        jobs += [(what, mode, k, here, old, state(s)) for mode in modes for k in range(1, n + 1)]
        shutil.rmtree(s)
    with ThreadPoolExecutor(2) as pool:
        got = list(pool.map(one, jobs))
    shutil.rmtree(base)
    met = [sum(g[0] == k for g in got) for k in (0, 3, KILLED)]
    news = sum(g[1] for g in got)
    assert all(met) and 0 < news < len(got)
    print("faults: system calls: %s; %d faults (%d said done, %d said trouble, %d killed); then %d new states, %d old"
          % (", ".join(counts), len(got), *met, news, len(got) - news))
