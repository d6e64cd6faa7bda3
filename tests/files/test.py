"""test.py BUILD [PART ...] - the tests of a station's files. BUILD holds drive,
drive-asan (with the sanitizers) and shim.so. Only the standard library."""
import os, random, re, shutil, subprocess, sys, time
from concurrent.futures import ThreadPoolExecutor

import damage
from folders import get, put, tree

B = os.path.abspath(sys.argv[1])
PLAIN, ASAN, SHIM = B + "/drive", B + "/drive-asan", B + "/shim.so"
R = random.Random(20)


def run(*args, exe=PLAIN, shim=None, n=0, log=None, user=None):
    env = dict(os.environ, ASAN_OPTIONS="detect_leaks=0")
    if shim:
        env.update(LD_PRELOAD=SHIM, SHIM_MODE=shim, SHIM_N=str(n))
    if log:
        env["SHIM_LOG"] = log
    kw = dict(user=user, group=user, extra_groups=[]) if user else {}
    p = subprocess.run([exe, *map(str, args)], env=env, capture_output=True, text=True, timeout=60, **kw)
    return p.returncode, p.stdout, p.stderr


def ok(*args, **kw):
    r = run(*args, **kw)
    assert r[0] == 0 and r[2] == "", (args, r)
    return r[1]


def one_line(r, status, *words):
    assert r[0] == status and r[2].count("\n") == 1 and r[2].startswith("lavushmir: ") and "; " in r[2], r
    assert all(w in r[2] for w in words), (words, r)


STATE = {i: ok("state", i) for i in range(12)}


def sums():
    os.mkdir(B + "/sums")
    names = []
    for n in list(range(600)) + [65535, 65536, 65537, 1 << 20]:
        names.append("%s/sums/%d" % (B, n))
        put(names[-1], R.randbytes(n))
    assert ok("sum", *names) == subprocess.check_output(["cksum", *names], text=True)
    print("sums: %d files as cksum(1)" % len(names))


def golden():
    s = B + "/golden"
    for exe in (PLAIN, ASAN):
        ok("create", s + "/", 1, exe=exe)
        assert ok("load", s, exe=exe) == STATE[1]
        one_line(run("create", s, 1, exe=exe), 3, "there already")
        one_line(run("restore", s, exe=exe), 3, "no save before")
        one_line(run("before", s, exe=exe), 3, "no save before")
        ok("save", s, 2, exe=exe)
        ok("save", s, 4, exe=exe)
        assert ok("load", s, exe=exe) == STATE[4] and sorted(os.listdir(s)) == [
            "2", "3", "bootstrap.rom", "current", "execution.rom", "sums"]
        before = tree(s)  # reading the save before writes nothing
        assert ok("before", s, exe=exe) == "".join(STATE[2].splitlines(True)[2:]) and tree(s) == before
        for d in (s + "/3", s + "/2", s):  # a person with cksum(1) finds the same
            names = [l.split()[2] for l in open(d + "/sums")]
            assert subprocess.check_output(["cksum", *names], cwd=d) == get(d + "/sums")
        assert subprocess.check_output(["cksum", "sums"], cwd=s + "/3").split()[:2] == get(s + "/current").split()[1:]
        ok("restore", s, exe=exe)  # 4: state 2 again
        assert ok("load", s, exe=exe) == STATE[2] and os.path.isdir(s + "/3") and not os.path.exists(s + "/2")
        ok("restore", s, exe=exe)  # 5: undone
        assert ok("load", s, exe=exe) == STATE[4]
        ok("save", s, 5, exe=exe)
        assert ok("load", s, exe=exe) == STATE[5]
        ok("save", s, 6, "n", exe=exe)
        assert ok("load", s, exe=exe) == STATE[6]
        good = get(s + "/current")  # a damaged number must not choose what a save removes
        for text in (b"6" + good[1:], b"8" + good[1:], b"9\n", b"7"):
            put(s + "/current", text)
            before = tree(s)
            one_line(run("save", s, 7, "n", exe=exe), 3)
            assert tree(s) == before
        put(s + "/current", b"6\n")  # a person chose
        assert ok("load", s, exe=exe) == STATE[5]
        ok("save", s, 7, exe=exe)  # 7, a left-over now, is replaced
        assert ok("load", s, exe=exe) == STATE[7] and get(s + "/current").startswith(b"7 ")
        put(s + "/6/notes", b"mine")  # somebody's file is never removed
        one_line(run("save", s, 8, exe=exe), 0, "/6", "cannot be removed")
        one_line(run("save", s, 9, exe=exe), 0, "/6", "cannot be removed")
        assert not os.path.exists(s + "/7")
        assert ok("load", s, exe=exe) == STATE[9] and get(s + "/6/notes") == b"mine"
        os.mkdir(s + "/10")
        put(s + "/10/notes", b"mine")
        one_line(run("save", s, 10, exe=exe), 3, "/10", "in the way", "stands")
        assert ok("load", s, exe=exe) == STATE[9] and get(s + "/10/notes") == b"mine"
        shutil.rmtree(s + "/10")
        r = run("wrong", s, exe=exe)
        assert r[0] == 0 and r[2].count("\n") == 14 and ok("load", s, exe=exe) == STATE[9], r
        good = get(s + "/current")
        os.rename(s + "/9", s + "/999999999")
        put(s + "/current", b"999999999\n")
        one_line(run("save", s, 10, exe=exe), 3, "highest number")
        os.rename(s + "/999999999", s + "/9")
        put(s + "/current", good)
        put(s + "/9/image", b"x" * 742)
        one_line(run("load", s, exe=exe), 3, "9/image", "longer", "lavushmir --restore STATION")
        ok("restore", s, exe=exe)
        assert ok("load", s, exe=exe) == STATE[8]
        shutil.rmtree(s + "/9")
        os.unlink(s + "/10/ram")
        one_line(run("load", s, exe=exe), 3, "10/ram", "backup copy")
        shutil.rmtree(s)
        one_line(run("load", s, exe=exe), 3, "check the path")
        one_line(run("create", B + "/none/x", 1, exe=exe), 3)
        one_line(run("create", "", 1, exe=exe), 3)
        one_line(run("create", "/", 1, exe=exe), 3, "no name")
        for make in (os.mkdir, lambda p: put(p, b""), lambda p: os.symlink("nothing", p), os.mkfifo):
            make(s)  # whatever is there is left alone
            before = tree(B)
            one_line(run("create", s, 1, exe=exe), 3, "there already")
            assert tree(B) == before
            os.rmdir(s) if os.path.isdir(s) else os.unlink(s)
        one_line(run("load", "a\nb" * 1300, exe=exe), 3)
        one_line(run("load", "a\nb" * 2000, exe=exe), 3)
    os.mkdir(B + "/rel")  # a relative path, and a folder name that is a bare word
    p = subprocess.run([PLAIN, "create", "word", "1"], cwd=B + "/rel")
    assert p.returncode == 0 and ok("load", B + "/rel/word") == STATE[1] and os.listdir(B + "/rel") == ["word"]
    print("golden: create, load, save, restore, cksum(1), repair by hand: 2 builds")


def big():
    s, t = B + "/big", time.time()
    os.environ["DRIVE_BIG"] = "1"
    ok("create", s, 1)
    ok("save", s, 2)
    assert ok("load", s) == ok("state", 2)
    del os.environ["DRIVE_BIG"]
    shutil.rmtree(s)
    print("big: 16 MiB ram, 16 MiB journal: %.1f s" % (time.time() - t))


def damage_one(i, base):
    s = "%s/damaged-%d" % (B, i)
    kind, name, user = damage.damage(i, base, s)
    before = tree(s)
    res = run("load", s, exe=ASAN if i % 3 == 0 else PLAIN, user=user)
    one_line(res, 3)
    assert res[1] == "" and tree(s) == before, (i, kind, name)
    damage.remove(s)
    return kind, re.sub(r".*(damaged-\d+)", "S", res[2])


def damages():
    base = B + "/base"
    ok("create", base, 1), ok("save", base, 2), ok("save", base, 4)
    with ThreadPoolExecutor(2) as pool:
        got = list(pool.map(lambda i: damage_one(i, base), range(1008)))
    print("damages: %d of %d kinds, %d different lines, status 3, nothing changed"
          % (len(got), len({k for k, _ in got}), len({l for _, l in got})))


def calls_of(args, s):
    log = s + ".log"
    ok(*args, shim="count", log=log)
    n = int(get(log).splitlines()[-1].split(b"\t")[1])
    os.unlink(log)
    return n


def fault_one(job):
    what, how, mode, n, base, old, new = job
    s = "%s/fault-%s-%s-%s-%d" % (B, what, how, mode, n)
    if what != "create":
        shutil.copytree(base, s)
    args = (what, s, new, how) if what == "save" else (what, s, new)
    res = run(*args, shim=mode, n=n)
    where = (job, res)
    assert res[0] in (0, 77 if mode in ("before", "after") else 3), where
    assert res[2].count("\n") <= 1 + how.count("2"), where
    assert res[0] != 3 or res[2].count("\n") >= 1, where
    if what == "create" and mode == "EIO" and res[0] == 3 and "cannot be closed" not in res[2]:
        assert not os.path.lexists(s), where  # taken back, so that a second try begins anew
    if what == "create" and not os.path.lexists(s):
        assert res[0] != 0, where
        ok("create", s, old, shim="fast")
        new = old
    state, later = ok("check", s, 9, shim="fast").split("then\n")
    assert later == STATE[9], where
    assert state in (STATE[old], STATE[new]), where
    assert res[0] != 0 or state == STATE[new], where
    if what == "save" and mode == "EIO" and n < job_reads[0]:
        assert res[0] == 3, where  # in the load before it no failure is passed over
    if how.count("2") and res[0] == 3:
        # one fault and two saves: then it was the load before, or the close after
        assert n <= job_reads[0] or n >= job_reads[1], where
    shutil.rmtree(s)
    return res[0], state == STATE[new]


job_reads = [0, 1 << 30]  # calls of a load; the first call after a save


def faults():
    base, jobs = B + "/base", []
    modes = ["EIO", "ENOSPC", "sticky", "lie", "before", "after"]
    for what, how, old, new in (("save", "", 4, 6), ("save", "2", 4, 6), ("restore", "", 4, 2), ("create", "", 3, 3)):
        s = B + "/count-" + what + how
        if what != "create":
            shutil.copytree(base, s)
        n = calls_of((what, s, new, how) if what == "save" else (what, s, new), s)
        if how == "2":
            load = calls_of(("load", s), s)
            job_reads[:] = [load, n - 1]
        for mode in ["EIO", "lie"] if how else modes:
            jobs += [(what, how, mode, k, base, old, new) for k in range(1, n + 1)]
        print("  %s%s: %d calls" % (what, " and again" if how == "2" else "", n))
        shutil.rmtree(s)
    with ThreadPoolExecutor(2) as pool:
        got = list(pool.map(fault_one, jobs))
    print("faults: %d runs (%d said done, %d said trouble, %d killed); after them %d new states, %d old, 0 mixed"
          % (len(got), *(sum(g[0] == k for g in got) for k in (0, 3, 77)), sum(g[1] for g in got), sum(not g[1] for g in got)))
    left = [n for n in os.listdir(B) if ".new-" in n]
    assert all(n.startswith("fault-create") for n in left), left
    for n in left:
        shutil.rmtree(B + "/" + n)
    s = B + "/short"
    ok("create", s, 3, shim="short"), ok("save", s, 6, shim="short"), ok("restore", s, shim="short")
    assert ok("load", s, shim="short") == STATE[3]
    n = calls_of(("save", s, 6), s)
    for k in range(1, n + 1):
        ok("save", s, 4 + k % 2, shim="EINTR", n=k)
    assert ok("load", s) == STATE[4 + n % 2]
    print("short transfers with EINTR at every third call; EINTR at each of %d calls of a save: no failure" % n)


def together():
    s = B + "/together"
    ok("create", s, 1)
    hold = subprocess.Popen([PLAIN, "hold", s], stdin=subprocess.PIPE, stdout=subprocess.PIPE, text=True)
    assert hold.stdout.readline() == "held\n"
    for what in (("load", s), ("save", s, 2), ("restore", s)):
        t, before = time.time(), tree(s)
        one_line(run(*what), 4, "in use")
        assert time.time() - t < 1 and tree(s) == before
    hold.kill(), hold.wait()
    ok("load", s)
    both = 0
    for i in range(20):
        ps = [subprocess.Popen([PLAIN, "save", s, str(2 + k)], stderr=subprocess.PIPE) for k in range(4)]
        codes = [p.wait() for p in ps]
        assert set(codes) <= {0, 4} and 0 in codes and ok("load", s) in STATE.values()
        both += codes.count(4)
    for i in range(20):
        c = "%s/twice-%d" % (B, i)
        ps = [subprocess.Popen([PLAIN, "create", c, str(k + 1)], stderr=subprocess.PIPE) for k in range(3)]
        codes = [p.wait() for p in ps]
        assert sorted(codes) == [0, 3, 3] and ok("load", c) == STATE[codes.index(0) + 1]
    assert not [n for n in os.listdir(B) if ".new-" in n]
    print("together: lock refused at once; 20 rounds of 4 savers (%d refused), 20 rounds of 3 creators" % both)


if __name__ == "__main__":
    import powercut
    def powercuts():
        powercut.main(sys.modules[__name__])

    for part in (sums, golden, big, damages, faults, together, powercuts):
        if len(sys.argv) > 2 and part.__name__ not in sys.argv:  # for work on one part
            continue
        t = time.time()
        part()
        print("  %.1f s" % (time.time() - t), flush=True)
