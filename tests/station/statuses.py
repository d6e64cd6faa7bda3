"""statuses.py - the exit status of every kind of end, and what is saved then."""
import os, shutil, subprocess

from folders import get, put, tree
from program import B, CHECKED, PLAIN, command, ok, one_line, run
from stations import BOOTSTRAP, EXECUTION, SMALL, clock, make, state

LINE = 1024


def usage(folder):
    for args in ((), ("",), ("-x",), ("--", "s"), ("--restore",), ("--convert",), ("--help", "x"), ("--version", "x")):
        r = run(*args, folder=folder)
        assert r[0] == 2 and r[1] == b"" and r[2].startswith("usage: lavushmir STATION"), r
    assert ok("--help", folder=folder).startswith(b"usage: lavushmir STATION")
    assert ok("--version", folder=folder).startswith(b"lavushmir ")
    return 10


def no_station(folder):
    """Without a station only new, help and quit make sense, and nothing is made."""
    s, cases = B + "/none", 0
    for line in ("info registers", "run 1", "save", "restore", "compare x", "load x 0", "back 1", "paper"):
        r = run(s, *line.split(), folder=folder)
        assert r[0] == 1 and r[2].count("\n") == 1 and not os.path.lexists(s), r
        cases += 1
    assert run(s, "help", folder=folder)[0] == 0 and run(s, "quit", folder=folder)[0] == 0
    assert run(s, "frobnicate", folder=folder)[0] == 2
    assert run(s, folder=folder)[0] == 0 and not os.path.lexists(s)
    one_line(run(s, *SMALL[:-1], B + "/nothing", folder=folder), 3, "/nothing: cannot be opened")
    one_line(run(s, *SMALL[:-1], B, folder=folder), 3, "is not a regular file")
    put(B + "/odd", b"12345")
    put(B + "/long", bytes(65540))
    for rom in ("odd", "long"):
        r = run(s, *SMALL[:-1], B + "/" + rom, folder=folder)
        assert r[0] == 1 and r[2].count("\n") == 1 and not os.path.lexists(s), r
    one_line(run(B + "/none/below", *SMALL, folder=folder), 3, "cannot be made in that folder")
    return cases + 9


def commands(folder):
    """One command from the arguments: done, refused, no command, file trouble."""
    s = make(B + "/commands")
    before = state(s)
    assert clock(s) == 0 and len(before["ram"]) == 4096 and len(before["journal"]) == 2048
    assert get(s + "/execution.rom") == get(EXECUTION) and get(s + "/bootstrap.rom") == get(BOOTSTRAP)
    ok(s, "run", "250000", folder=folder)
    assert clock(s) == 250000
    ok(s, "back", "3", folder=folder)
    assert clock(s) == 249997
    kept = tree(s)
    for args, status in ((("back", "4"), 1), (SMALL, 1), (("frobnicate",), 2), (("run",), 2), (("x" * (LINE + 1),), 1),
                         (("run", "1\n"), 2)):
        r = run(s, *args, folder=folder)
        assert r[0] == status and r[1] == b"" and r[2] != "", (args, r)
        assert tree(s) == kept, args
    for args in (("info", "registers"), ("help",), ("quit",), ("abandon",), ("#",)):
        ok(s, *args, folder=folder)
        assert tree(s) == kept, args  # nothing changed, so nothing is saved
    for name, word in ((B + "/nothing", "cannot be opened"), (B, "regular"), ("/dev/null", "regular"),
                       ("n" * 300, "File name too long")):
        one_line(run(s, "load", name, "0x20000000", folder=folder), 3, word)
        assert tree(s) == kept
    put(B + "/page", b"\x5a" * 4096)
    ok(s, "load", B + "/page", "0x20000000", folder=folder)
    assert state(s)["ram"] == b"\x5a" * 4096
    for size in (4097, (16 << 20) + 1, (16 << 20) + 5000):
        put(B + "/big", bytes(size))
        kept = tree(s)
        r = run(s, "load", B + "/big", "0x20000000", folder=folder)
        assert r[0] == 1 and r[2].count("\n") == 1 and tree(s) == kept, r
    ok(s, "restore", folder=folder)
    assert clock(s) == 249997 and state(s)["ram"] != b"\x5a" * 4096
    shutil.copytree(s, s + "-2")
    ok(s, "compare", s + "-2", folder=folder)
    one_line(run(s, "compare", s, folder=folder), 3, "this station itself")
    one_line(run(s, "compare", B + "/nothing", folder=folder), 3, "cannot be opened as a station")
    return 27


def scripts(folder):
    """Lines on standard input: a script ends at the first that is refused, and what was done is saved."""
    s = make(B + "/scripts")
    ok(s, stdin=b"run 10\n# a note\n\n   \nrun 20\n", folder=folder)
    assert clock(s) == 30
    r = run(s, stdin=b"run 5\nback 99\nrun 1000\n", folder=folder)
    assert r[0] == 1 and "line 2" in r[2] and clock(s) == 35, r
    ok(s, stdin=b"run 7", folder=folder)  # no line feed at the end
    assert clock(s) == 42
    ok(s, stdin=b"run 8\nabandon\nrun 1\n", folder=folder)
    assert clock(s) == 42
    ok(s, stdin=b"run 8\nsave\nrun 9\nquit\nrun 1\n", folder=folder)
    assert clock(s) == 59
    ok(s, stdin=b"run " + b" " * (LINE - 5) + b"3\n", folder=folder)
    assert clock(s) == 62
    ok(s, stdin=b"restore\nrun 1\n", folder=folder)  # what was restored is what runs
    assert clock(s) == 60
    for line in (b"run " + b" " * (LINE - 4) + b"3", b"x" * (1 << 20), b"run 1\0", b"\0", b"\xff" * 99, b"run 1\r"):
        r = run(s, stdin=b"run 1\n" + line + b"\nrun 1000\n", folder=folder)
        assert r[0] == 1 and "line 2" in r[2], (line[:9], r)
    assert clock(s) == 66
    one_line(run(s, stdin=open_folder(), folder=folder), 3, "standard input", "Is a directory")
    p = subprocess.run(["sh", "-c", 'exec "$@" <&-', "sh", *command((s,), folder)[0]], capture_output=True)
    assert p.returncode == 0, p  # closed: no line
    return 13


def largest(folder):
    """The largest machine, and files up to the length of its RAM and above it."""
    s, full = B + "/largest", b"\xa5" * (16 << 20)
    ok(s, "new", "ram", "4096", "paper", "65536", "journal", "32768", *SMALL[7:], folder=folder)
    assert [len(f) for f in state(s).values()] == [741, 16 << 20, 65536, 16 << 20, 65536]
    for more, status in ((b"", 0), (b"\xa5", 1), (bytes(9), 1)):
        put(B + "/ram-file", full + more)
        r = run(s, "load", B + "/ram-file", "0x20000000", folder=folder)
        assert r[0] == status and state(s)["ram"] == full, (len(more), r)
    shutil.rmtree(s)
    return 4


class open_folder:
    """A standard input that cannot be read."""
    def __init__(self):
        self.fd = os.open(B, os.O_RDONLY)

    def fileno(self):
        return self.fd


def outputs(folder):
    """Standard output that takes no more: status 3, one line, no further command, and the station is saved."""
    s, cases = make(B + "/outputs"), 0
    put(B + "/page", b"\x5a" * 4096)
    lines = b"run 11\nload %s 0x20000000\nrun 1000\n" % os.fsencode(B + "/page")
    for redirect in ("> /dev/full", ">&-", "| true"):
        steps = clock(s)
        script = 'sleep 0.05; "$@" %s; echo "status $?"' % redirect
        if redirect == "| true":
            script = 'set -o pipefail; { sleep 0.3; "$@"; echo "status $?" >&2; } | true'
        p = subprocess.run(["bash", "-c", script, "bash", *command((s,), folder)[0]], input=lines,
                           capture_output=True)
        said = (p.stdout + p.stderr).decode()
        assert "status 3\n" in said and said.count("lavushmir: standard output: cannot be written") == 1, (redirect, said)
        assert clock(s) == steps + 11 and state(s)["ram"][-1] == 0, (redirect, clock(s) - steps)
        cases += 1
    with open("/dev/full", "wb") as full:
        one_line(run("--help", stdout=full, folder=folder), 3, "standard output")
    return cases + 1


def main():
    total = 0
    for folder in (PLAIN, CHECKED):
        for part in (usage, no_station, commands, scripts, outputs) + ((largest,) if folder == PLAIN else ()):
            total += part(folder)
        for n in ("commands", "commands-2", "scripts", "outputs"):
            shutil.rmtree(B + "/" + n)
    print("statuses: %d sessions with status 0 to 3, on the plain and the checked build" % total)
