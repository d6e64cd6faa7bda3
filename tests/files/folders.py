"""folders.py - read, write and take down a whole folder, for the tests."""
import os, stat


def tree(top):
    """Everything a load must not change: kind, mode, size, times, links, bytes."""
    out = {}
    for path, dirs, names in os.walk(top):
        for name in [""] + dirs + names:
            p = os.path.join(path, name)
            s = os.lstat(p)
            data = os.readlink(p) if os.path.islink(p) else ""
            if stat.S_ISREG(s.st_mode) and os.access(p, os.R_OK):
                data = get(p)
            out[p] = (s.st_mode, s.st_size, s.st_mtime_ns, s.st_ctime_ns, s.st_nlink, s.st_ino, data)
    return out


def put(path, data):
    if os.path.lexists(path):
        os.chmod(path, 0o644)
    with open(path, "wb") as f:
        f.write(data)


def get(path):
    with open(path, "rb") as f:
        return f.read()
