"""pipe.py FOLDER INPUTS [all] - the program lavushmir-gdb over a pipe.

FOLDER holds the programs lavushmir and lavushmir-gdb as station/build.sh makes
them; INPUTS is a file of inputs, each behind its length (four bytes, the lowest
first). Every input is given to a session of its own, on a copy of a small station:
every other one, if it is not long, in writes of one byte, each of which is a read
of its own; with `all`, every one is. The program ends by itself, with a status of include/station.h, and
says whole packets only. Programs that are wrong on purpose must be noticed. Only
the standard library."""
import collections
import concurrent.futures
import os
import select
import shutil
import struct
import subprocess
import sys
import tempfile
import time

SECONDS = 60
# So long says a program nothing that waits for more.
QUIET = 0.3
STATUSES = range(5)
# A session waits for most of its time.
AT_ONCE = 8
# Longer ones are not given byte by byte: half a packet is heard anew with each.
MOST_CUT = 8000

WRONG = {
    "ends by a signal": "import os; os.kill(os.getpid(), 11)",
    "aborts": "import os; os.abort()",
    "never ends": "import time; time.sleep(1000)",
    "ends with a checker's status": "import sys; sys.exit(99)",
    "says half a packet": "print(end='$T05')",
    "says a wrong sum": "print(end='+$OK#9b')",
    "says bytes between packets": "print(end='+$OK#9a\\n$OK#9a')",
}


def whole_packets(said):
    """Whether all of it is +, - and packets with right sums, and how many of these."""
    at = packets = 0
    while at < len(said):
        if said[at:at + 1] in (b"+", b"-"):
            at += 1
            continue
        end = said.find(b"#", at)
        if said[at:at + 1] != b"$" or end < 0 or end + 3 > len(said):
            return None
        try:
            if int(said[end + 1:end + 3], 16) != sum(said[at + 1:end]) % 256:
                return None
        except ValueError:
            return None
        at, packets = end + 3, packets + 1
    return packets


def talk(program, pipe, given, most, until):
    """All that the program says. The pipe stays open until it says no more, as gdb's does: what is not used yet when
    the input ends is not answered. Each write has up to `most` bytes."""
    said = bytearray()
    given = memoryview(given)
    is_open = True
    while True:
        if time.time() > until:
            raise TimeoutError
        wants = [pipe] if is_open and len(given) else []
        readable, writable, _ = select.select([program.stdout], wants, [], QUIET)
        try:
            if writable:
                given = given[os.write(pipe.fileno(), given[:most]):]
        except BrokenPipeError:
            given = given[:0]
        if readable:
            part = os.read(program.stdout.fileno(), 65536)
            if not part:
                break
            said += part
        elif not writable and is_open:
            is_open = False
            pipe.close()
    return bytes(said)


def pipe_of_parts():
    """A pipe whose reader gets each write by itself."""
    reads, writes = os.pipe2(os.O_DIRECT | os.O_CLOEXEC)
    os.set_blocking(writes, False)
    return open(reads, "rb", buffering=0), open(writes, "wb", buffering=0)


def trouble(command, given, most, seconds, met):
    """What is wrong with a program's end, or None."""
    reads, pipe = pipe_of_parts()
    with tempfile.TemporaryFile() as errors, pipe:
        with reads:
            program = subprocess.Popen(command, stdin=reads, stdout=subprocess.PIPE, stderr=errors)
        try:
            said = talk(program, pipe, given, most, time.time() + seconds)
            status = program.wait(timeout=seconds)
        except (subprocess.TimeoutExpired, TimeoutError):
            program.kill()
            program.wait()
            return "no end in %d seconds" % seconds
        finally:
            program.stdout.close()
        errors.seek(0)
        told = errors.read()
    if status not in STATUSES:
        return "status %d: %s" % (status, told[-2000:].decode(errors="replace"))
    if b"runtime error" in told or b"AddressSanitizer" in told:
        return "a checker's finding: %s" % told[-2000:].decode(errors="replace")
    packets = whole_packets(said)
    if packets is None:
        return "no whole packets: %r" % said[-300:]
    met["ends with status %d" % status] += 1
    met["replies"] += packets
    met["bytes on standard error"] += len(told)
    return None


def noticed():
    for name, text in WRONG.items():
        found = trouble([sys.executable, "-c", text], b"", 1, 3, collections.Counter())
        if found is None:
            print("packets: NOT NOTICED: a program that %s" % name)
            return False
        print("packets: noticed: a program that %s" % name)
    return True


def make_station(folder, work):
    """A loop that counts into RAM, and a handler that goes on behind."""
    words = [0x3C102000, 0x25080001, 0xAE080000, 0xA2080005, 0x0000000C, 0x0BF00001, 0]
    words += [0] * (0x60 - len(words)) + [0x401A7000, 0x275A0004, 0x03400008, 0x42000010]
    with open(os.path.join(work, "boot.rom"), "wb") as rom:
        rom.write(struct.pack("<%dI" % len(words), *words))
    with open(os.path.join(work, "exec.rom"), "wb") as rom:
        rom.write(bytes(4))
    lines = "new ram 1 paper 80 journal 17 execution exec.rom bootstrap boot.rom\nrun 50\n"
    done = subprocess.run([os.path.join(folder, "lavushmir"), "S"], input=lines.encode(), cwd=work,
                          stdout=subprocess.PIPE, stderr=subprocess.STDOUT)
    if done.returncode != 0:
        sys.exit("pipe.py: no station: %s" % done.stdout.decode(errors="replace"))


def inputs(name):
    with open(name, "rb") as file:
        while True:
            length = file.read(4)
            if not length:
                return
            yield file.read(struct.unpack("<I", length)[0])


def session(folder, work, number, given, every):
    """What is wrong with one session, or None; and what was met in it."""
    met = collections.Counter(sessions=1)
    is_cut = every or number % 2 == 1 and len(given) <= MOST_CUT
    met["sessions cut at every byte"] += is_cut
    met["bytes given"] += len(given)
    copy = os.path.join(work, "copy%d" % number)
    shutil.copytree(os.path.join(work, "S"), copy)
    found = trouble([os.path.join(folder, "lavushmir-gdb"), copy], given, 1 if is_cut else 4096, SECONDS, met)
    shutil.rmtree(copy, ignore_errors=True)
    if found is not None:
        found = "input %d: %s\n%r" % (number, found, given[:600])
    return found, met


def sessions(folder, work, name, every):
    """The first trouble, or None; and what was met."""
    met = collections.Counter()
    with concurrent.futures.ThreadPoolExecutor(AT_ONCE) as pool:
        waits = [pool.submit(session, folder, work, number, given, every) for number, given in enumerate(inputs(name), 1)]
        for wait in concurrent.futures.as_completed(waits):
            found, one = wait.result()
            met += one
            if found is not None:
                pool.shutdown(cancel_futures=True)
                return found, met
    return None, met


def main():
    folder, name = os.path.abspath(sys.argv[1]), sys.argv[2]
    with tempfile.TemporaryDirectory() as work:
        make_station(folder, work)
        found, met = sessions(folder, work, name, sys.argv[3:] == ["all"])
    if found is not None:
        print("packets: lavushmir-gdb, " + found)
        return 1
    for what in sorted(met):
        print("packets: lavushmir-gdb: %d %s" % (met[what], what))
    if met["replies"] < met["sessions"] or not met["sessions cut at every byte"] or not noticed():
        return 1
    print("packets: lavushmir-gdb: all as it must be, all %d wrong programs noticed" % len(WRONG))
    return 0


if __name__ == "__main__":
    sys.exit(main())
