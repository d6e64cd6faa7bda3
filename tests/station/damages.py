"""damages.py - 1,000 damaged stations: status 3, one line, nothing written."""
import re, shutil
from concurrent.futures import ThreadPoolExecutor

import damage
from folders import put, tree
from program import B, CHECKED, PLAIN, ok, one_line, run
from stations import clock, make

COUNT = 1008
WAYS = (("info", "clocks"), ("run", "10"), ("save",), ("quit",), ())


def one(i, base):
    s = "%s/damaged-%d" % (B, i)
    kind, name, user = damage.damage(i, base, s)
    before = tree(s)
    res = run(s, *WAYS[i % len(WAYS)], stdin=b"run 10\n", folder=CHECKED if i % 10 == 0 else PLAIN, user=user)
    one_line(res, 3)
    assert res[1] == b"" and tree(s) == before, (i, kind, name)
    damage.remove(s)
    return kind, name, re.sub(r".*damaged-\d+", "S", res[2])


def repair():
    """A damaged save is left for the one before, as the line says."""
    s = make(B + "/repair", 10, 20)
    put(s + "/3/ram", b"damaged")
    one_line(run(s, "info", "clocks"), 3, "3/ram", "lavushmir --restore STATION")
    ok("--restore", s)
    assert clock(s) == 10
    ok(s, "run", "5")
    assert clock(s) == 15
    put(s + "/current", b"nonsense")
    one_line(run("--restore", s), 3, "current", "write the number")
    put(s + "/current", b"5\n")
    assert run(s, "info", "clocks")[0] == 0
    shutil.rmtree(s)


def main():
    base = make(B + "/base", 10, 20)
    with ThreadPoolExecutor(2) as pool:
        got = list(pool.map(lambda i: one(i, base), range(COUNT)))
    shutil.rmtree(base)
    repair()
    print("damages: %d stations, %d kinds on %d files, %d different lines; status 3, nothing written; and a repair"
          % (len(got), len({k for k, _, _ in got}), len({n for _, n, _ in got}), len({l for _, _, l in got})))
