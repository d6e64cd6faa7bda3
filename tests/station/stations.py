"""stations.py - stations for the tests, and what is in them."""
import os, struct

from folders import get, put
from program import B, ok

# lui $8, 0x2000; then for ever: addiu $9, $9, 1; sw $9, 0($8); beq back; nop
LOOP = struct.pack("<5I", 0x3C082000, 0x25290001, 0xAD090000, 0x1000FFFD, 0)
EXECUTION, BOOTSTRAP = B + "/execution", B + "/bootstrap"
SMALL = ("new", "ram", "1", "paper", "8", "journal", "4", "execution", EXECUTION, "bootstrap", BOOTSTRAP)
NAMES = ("image", "ram", "paper", "journal", "index")


def make_roms():
    put(EXECUTION, bytes(range(256)) * 16)
    put(BOOTSTRAP, LOOP)


def state(s):
    """The bytes of the generation in force. One from before the index has none."""
    gen = get(s + "/current").split()[0].decode()
    files = {n: "%s/%s/%s" % (s, gen, n) for n in NAMES}
    return {n: get(p) for n, p in files.items() if n != "index" or os.path.exists(p)}


def clock(s):
    """The steps since the reset: the clock's two words in the image."""
    return int.from_bytes(state(s)["image"][5 + 4 * 75:5 + 4 * 77], "big")


def make(s, *runs, words=SMALL):
    """A small station, with a save after each of these runs."""
    ok(s, *words)
    for n in runs:
        ok(s, "run", str(n))
    return s
