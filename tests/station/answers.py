"""answers.py - the C side beside a session that answers by dice (any.c), with
the compiler's checks of addresses: it bears any answer, and every event is one
that station.h allows. No archive takes part."""
import os, random, shutil, subprocess
from concurrent.futures import ThreadPoolExecutor

from folders import get, put
from program import B

COUNT = 100
EVENTS = 14


def one(seed, other):
    d = "%s/any-%d" % (B, seed)
    os.mkdir(d)
    put(d + "/rom", bytes(4096))
    r, log = random.Random(seed), d + "/log"
    lines = [b"rom", b"rom", b"nothing", b".", b"s", os.fsencode(other), b"\0", b"a\0b", b"n" * 300, b"x" * 1024,
             b"x" * 1025, b""]
    script = b"\n".join(r.choice(lines) for _ in range(r.randrange(40)))
    for _ in range(2):  # the second time the first's station is there, if it made one
        p = subprocess.run([B + "/any", "s"], cwd=d, input=script, capture_output=True, timeout=120,
                           env=dict(os.environ, ANY_SEED=str(seed + 1), ANY_LOG=log, ASAN_OPTIONS="detect_leaks=0"))
        assert 0 <= p.returncode <= 4 and b"Sanitizer" not in p.stderr and b"runtime error" not in p.stderr, (seed, p)
    met = [int(e) for e in get(log).split()]
    shutil.rmtree(d)
    return met


def main():
    other = B + "/any-other"
    for seed in range(1, 99):  # a station of its own to compare with
        if os.path.isdir(other + "/s"):
            break
        os.makedirs(other, exist_ok=True)
        put(other + "/rom", bytes(4096))
        subprocess.run([B + "/any", "s"], cwd=other, input=b"rom\n" * 60, capture_output=True, timeout=120,
                       env=dict(os.environ, ANY_SEED=str(seed), ANY_LOG=other + "/log", ASAN_OPTIONS="detect_leaks=0"))
    with ThreadPoolExecutor(2) as pool:
        met = [e for events in pool.map(lambda i: one(i, other + "/s"), range(COUNT)) for e in events]
    counts = [met.count(e) for e in range(EVENTS)]
    missing = [e for e in range(EVENTS) if counts[e] == 0]
    assert missing == [3, 9], counts  # Ctrl-C and a failing save, which sessions.py and faults.py have
    print("answers: %d sessions by dice, %d events, of 12 kinds: %s" % (2 * COUNT, len(met), counts))
