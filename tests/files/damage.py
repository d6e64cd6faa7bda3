"""damage.py - damage a copy of a station in one of sixteen ways.

The station to copy has the generations 2 and 3, and 3 is in force."""
import os, random, shutil, stat

from folders import get, put

ROOT = os.geteuid() == 0
CURRENTS = [b"", b"\n", b"3", b"0\n", b"03\n", b"-3\n", b"+3\n", b" 3\n", b"3 \n", b"3\n3\n", b"3\n\n", b"4\n",
            b"3\0\n", b"\0" * 63, b"three\n", b"999999999\n", b"4294967299\n", b"../3\n",
            b"18446744073709551619\n", b"3\r\n", b"1e0\n", b"3 0 0\n"]


def flip(r, s, p, data):
    k = r.randrange(len(data))
    put(p, data[:k] + bytes([data[k] ^ (1 << r.randrange(8))]) + data[k + 1:])


def truncate(r, s, p, data):
    put(p, data[:r.randrange(len(data))])


def extend(r, s, p, data):
    put(p, data + r.choice([b"\0", b"\n", b"0", data, bytes(100000)]))


def zeros(r, s, p, data):
    put(p, bytes(len(data)) if any(data) else b"\1" * len(data))


def delete(r, s, p, data):
    os.unlink(p)


def folder(r, s, p, data):
    os.unlink(p)
    os.mkdir(p)


def symlink(r, s, p, data):
    """Even to the right bytes, or to nothing."""
    os.rename(p, p + ".away")
    os.symlink(r.choice([p + ".away", "nothing", "..", p]), p)


def fifo(r, s, p, data):
    os.unlink(p)
    os.mkfifo(p)


def device(r, s, p, data):
    os.unlink(p)
    if ROOT:
        os.mknod(p, stat.S_IFCHR | 0o666, r.choice([os.makedev(1, 3), os.makedev(1, 5)]))


def swap(r, s, p, data):
    others = [n for n in names(s) + ["2/ram", "2/image", "2/sums"] if get(s + "/" + n) != data]
    p2 = s + "/" + r.choice(others)
    other = get(p2)
    put(p2, data)
    put(p, other)


def chmod(r, s, p, data):
    os.chmod(r.choice([p, s + "/3", s]), 0)


def current(r, s, p, data):
    good = get(s + "/current")
    noise = bytes(r.randrange(256) for _ in range(40))
    put(s + "/current", r.choice(CURRENTS + [b"2 " + good[2:], noise]))


def huge(r, s, p, data):
    put(s + "/current", r.choice([b"3", b"3\n", b"\0", b" "]) * r.choice([64, 65, 4096, 1 << 20]))


def no_sums(r, s, p, data):
    os.unlink(s + "/" + r.choice(["sums", "3/sums"]))


def generation(r, s, p, data):
    shutil.move(s + "/3", s + "/away")
    how = r.randrange(4)
    if how == 1:
        put(s + "/3", b"file")
    elif how == 2:
        os.symlink("away", s + "/3")
    elif how == 3:
        os.mkdir(s + "/3")


def old_sums(r, s, p, data):
    put(s + "/3/sums", r.choice([get(s + "/2/sums"), get(s + "/sums"), get(s + "/3/sums")[:-1], b"\n"]))


KINDS = [flip, truncate, extend, zeros, delete, folder, symlink, fifo, device, swap, chmod, current, huge, no_sums,
         generation, old_sums]


def names(s):
    return sorted("3/" + n for n in os.listdir(s + "/3")) + ["current", "sums", "execution.rom", "bootstrap.rom"]


def damage(i, base, s):
    """Copy `base` to `s` and damage it. Gives the kind, the file, and the user to load as, if another."""
    shutil.copytree(base, s, symlinks=True)
    os.chmod(s, 0o755)
    r, kind = random.Random(i), KINDS[i % len(KINDS)]
    name = r.choice([n for n in names(s) if get(s + "/" + n)])
    kind(r, s, s + "/" + name, get(s + "/" + name))
    return kind.__name__, name, 65534 if kind is chmod and ROOT else None


def remove(s):
    for d in (s, s + "/3"):
        if os.path.isdir(d) and not os.path.islink(d):
            os.chmod(d, 0o755)
    shutil.rmtree(s)
