"""program.py - run the program lavushmir, and hold what it prints to the rules
that hold for everything it prints."""
import os, subprocess, sys

B = os.path.abspath(sys.argv[1])
ARM = os.uname().machine == "aarch64"
PLAIN, CHECKED = B + "/plain", B + "/checked"  # CHECKED: built with sanitizers
SHIM = B + "/shim.so"
widest = ["", 0]


def command(args, folder=PLAIN, shim=False):
    """The words that start the program, and the environment that it needs."""
    env = dict(os.environ, ASAN_OPTIONS="detect_leaks=0:verify_asan_link_order=0", LC_ALL="C")
    words = [os.fsencode(a) if isinstance(a, str) else a for a in args]
    if os.path.exists(folder + "/lavushmir.x86-64"):
        preload = ["-E", "LD_PRELOAD=" + SHIM] if shim else []
        return ["qemu-x86_64", *preload, folder + "/lavushmir.x86-64", *words], env
    if shim:
        env["LD_PRELOAD"] = SHIM
    return [folder + "/lavushmir", *words], env


def run(*args, stdin=b"", folder=PLAIN, shim=None, n=0, log=None, user=None, **kw):
    """Status, bytes on standard output, text on standard error."""
    words, env = command(args, folder, shim is not None)
    if shim:
        env.update(SHIM_MODE=shim, SHIM_N=str(n))
    if log:
        env["SHIM_LOG"] = log
    if user:
        kw.update(user=user, group=user, extra_groups=[])
    if not hasattr(stdin, "fileno"):
        kw["input"] = stdin
    else:
        kw["stdin"] = stdin
    p = subprocess.run(words, env=env, stdout=kw.pop("stdout", subprocess.PIPE), stderr=subprocess.PIPE,
                       timeout=120, **kw)
    err = p.stderr.decode(errors="replace")
    assert "runtime error" not in err and "Sanitizer" not in err, (args, err)
    columns(p.stdout or b"")
    columns(err.encode())
    return p.returncode, p.stdout, err


def columns(data):
    """Every line fits 80 columns, but for those with `lavushmir: ` (also behind a prompt): they name a path."""
    for line in data.decode(errors="replace").replace("\r", "\n").split("\n"):
        if "lavushmir: " not in line:
            assert len(line) <= 80, line
            if len(line) > widest[1]:
                widest[:] = [line, len(line)]


def ok(*args, **kw):
    r = run(*args, **kw)
    assert r[0] == 0 and r[2] == "", (args, r)
    return r[1]


def one_line(r, status, *words):
    """That status, and one line on standard error that says what is wrong and what to do."""
    assert r[0] == status and r[2].count("\n") == 1 and r[2].startswith("lavushmir: ") and "; " in r[2], r
    assert all(w in r[2] for w in words), (words, r)
