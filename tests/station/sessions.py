"""sessions.py - signals, a terminal, and two programs at once."""
import os, pty, select, shutil, signal, subprocess, time

from program import ARM, B, CHECKED, PLAIN, columns, command, one_line, run
from folders import tree
from stations import SMALL, clock, make

# By the clock, from the signal to the first word about it: the median of seven. Other work beside the
# tests makes single ones longer. On Arm an emulator runs the program, and the bound is a wide one.
SOON = 5.0 if ARM else 0.1
FOR_EVER = b"run 1000000000000"


def start(s, *args, folder=PLAIN, **kw):
    words, env = command((s, *args), folder)
    return subprocess.Popen(words, env=env, **kw)


def wait_for(test, what):
    end = time.time() + 60
    while not test():
        assert time.time() < end, what
        time.sleep(0.005)


def busy(p):
    """Has the process used the processor for a fifth of a second? Then it is in its run."""
    fields = open("/proc/%d/stat" % p.pid).read().rsplit(")", 1)[1].split()
    return (int(fields[11]) + int(fields[12])) / os.sysconf("SC_CLK_TCK") > 0.2


def interrupted(folder):
    """SIGINT, SIGTERM and SIGHUP in a run, from the arguments and from a script."""
    times = []
    for number in (signal.SIGINT, signal.SIGTERM, signal.SIGHUP):
        for script in (None, FOR_EVER + b"\nrun 1000000\n"):
            s = make(B + "/interrupted")
            words = () if script else FOR_EVER.decode().split()
            p = start(s, *words, folder=folder, stdin=subprocess.PIPE, stdout=subprocess.PIPE, stderr=subprocess.PIPE)
            if script:
                p.stdin.write(script)
                p.stdin.flush()
            try:
                wait_for(lambda: busy(p), "the run does not begin")
                began = time.time()
                p.send_signal(number)
                assert select.select([p.stdout, p.stderr], [], [], 20)[0], (number, "nothing is said")
                times.append(time.time() - began)
                out, err = p.communicate(timeout=20)
            finally:
                p.kill()
            assert p.returncode in (0, 1) and b"Sanitizer" not in err, (number, p.returncode, err)
            steps = clock(s)
            assert steps > 0 and steps % 100000 == 0, (number, steps)
            columns(out)
            shutil.rmtree(s)
    return times


def nohup(folder):
    """A signal that the program was started without stays ignored."""
    s = make(B + "/nohup")
    p = start(s, *FOR_EVER.decode().split(), folder=folder, stdout=subprocess.PIPE, stderr=subprocess.PIPE,
              preexec_fn=lambda: signal.signal(signal.SIGHUP, signal.SIG_IGN))
    try:
        wait_for(lambda: busy(p), "the run does not begin")
        p.send_signal(signal.SIGHUP)
        time.sleep(1 if ARM else 0.2)
        assert p.poll() is None
        p.send_signal(signal.SIGTERM)
        p.communicate(timeout=20)
    finally:
        p.kill()
    assert clock(s) > 0
    shutil.rmtree(s)


class Terminal:
    def __init__(self, s, folder):
        self.pid, self.fd = pty.fork()
        if self.pid == 0:
            words, env = command((s,), folder)
            os.execvpe(words[0], words, env)
        self.seen = b""

    def type(self, data):
        os.write(self.fd, data)

    def expect(self, text, what, seconds=20):
        """Read until `text` has come; give what came up to it."""
        end = time.time() + seconds
        while text not in self.seen:
            assert select.select([self.fd], [], [], max(0, end - time.time()))[0], (what, self.seen)
            try:
                self.seen += os.read(self.fd, 4096)
            except OSError:
                raise AssertionError((what, self.seen))
        head, self.seen = self.seen.split(text, 1)
        if b"x" * 99 not in head:  # what the person typed
            columns(head.replace(b"\r", b"\n"))
        return head

    def end(self):
        try:
            while True:
                assert select.select([self.fd], [], [], 20)[0], ("the program does not end", self.seen)
                self.seen += os.read(self.fd, 4096)
        except OSError:  # the terminal has no program any more
            pass
        os.close(self.fd)
        columns(self.seen.replace(b"\r", b"\n"))
        return os.waitstatus_to_exitcode(os.waitpid(self.pid, 0)[1])


def terminal(folder):
    """A person at the prompt: Ctrl-C there and in a run, a refused line, one that is too long, Ctrl-D."""
    s = make(B + "/terminal")
    t = Terminal(s, folder)
    prompt = b"> "
    t.expect(prompt, "no prompt")
    t.type(b"\x03")
    t.expect(prompt, "no new prompt after Ctrl-C")
    t.type(b"back 99\n")
    t.expect(prompt, "no prompt after a refused line")
    t.type(b"x" * 1100 + b"\n")
    t.expect(prompt, "no prompt after a line that is too long")
    t.type(b"run 7\n")
    t.expect(prompt, "no prompt after a run")
    t.type(FOR_EVER + b"\n")
    time.sleep(1.5 if ARM else 0.3)
    began = time.time()
    t.type(b"\x03")
    t.expect(prompt, "no prompt after Ctrl-C in a run")
    took = time.time() - began
    t.type(b"half a line\x03")
    t.expect(prompt, "no prompt after Ctrl-C in a line")
    t.type(b"\x04")
    assert t.end() == 0
    assert clock(s) > 7 and clock(s) % 100000 == 7
    shutil.rmtree(s)
    return took


def at_the_prompt(folder):
    """SIGTERM and SIGHUP at the prompt, and a terminal that goes away: the station saves."""
    for how in (signal.SIGTERM, signal.SIGHUP, None):
        s = make(B + "/prompt")
        t = Terminal(s, folder)
        t.expect(b"> ", "no prompt")
        t.type(b"run 9\n")
        t.expect(b"> ", "no prompt after a run")
        if how is None:
            os.close(t.fd)
            os.waitpid(t.pid, 0)
        else:
            os.kill(t.pid, how)
            assert t.end() == 0
        assert clock(s) == 9, how
        shutil.rmtree(s)


def not_saved(folder):
    """A save that fails at the prompt keeps the session; and it ends where no one is there."""
    s = make(B + "/full")
    t = Terminal(s, folder)
    t.expect(b"> ", "no prompt")
    t.type(b"run 9\n")
    t.expect(b"> ", "no prompt after a run")
    os.mkdir(s + "/2")
    open(s + "/2/mine", "w").close()
    t.type(b"\x04")
    t.expect(b"in the way of the next save", "no word about the failed save")
    t.expect(b"> ", "no prompt after a failed save")
    shutil.rmtree(s + "/2")
    t.type(b"quit\n")
    assert t.end() == 0 and clock(s) == 9
    os.mkdir(s + "/3")
    open(s + "/3/mine", "w").close()
    t = Terminal(s, folder)
    t.expect(b"> ", "no prompt")
    t.type(b"run 9\n")
    t.expect(b"> ", "no prompt after a run")
    os.kill(t.pid, signal.SIGTERM)
    assert t.end() == 3 and clock(s) == 9
    shutil.rmtree(s)


def together(folder):
    """The second program on one station ends with status 4, at once, and changes nothing."""
    s = make(B + "/together")
    p = start(s, folder=folder, stdin=subprocess.PIPE, stdout=subprocess.PIPE)
    p.stdin.write(b"run 5\nsave\ninfo clocks\n")
    p.stdin.flush()
    wait_for(lambda: clock(s) == 5, "the first program does not save")
    before, cases = tree(s), 0
    for args in (("run", "1"), ("info", "clocks"), (), ("restore",)):
        one_line(run(s, *args, folder=folder), 4, "in use by another program")
        cases += 1
    one_line(run("--restore", s, folder=folder), 4, "in use by another program")
    other = make(B + "/other")
    one_line(run(other, "compare", s, folder=folder), 3, "in use by another program")
    assert tree(s) == before
    p.stdin.write(b"run 5\n")
    assert p.communicate(timeout=60) and p.returncode == 0 and clock(s) == 10
    shutil.rmtree(s)
    shutil.rmtree(other)
    return cases + 2


def locked_new(folder):
    """A station is held from the moment that it is there."""
    s = B + "/new"
    p = start(s, folder=folder, stdin=subprocess.PIPE, stdout=subprocess.PIPE)
    p.stdin.write(" ".join(SMALL).encode() + b"\nsave\n")
    p.stdin.flush()
    wait_for(lambda: os.path.exists(s), "the first program makes no station")
    one_line(run(s, "run", "1", folder=folder), 4, "in use by another program")
    p.stdin.write(b"run 6\n")
    assert p.communicate(timeout=60) and p.returncode == 0 and clock(s) == 6
    shutil.rmtree(s)
    return 1


def main():
    locked = 0
    for folder in (CHECKED, PLAIN):
        times = interrupted(folder)
        times.append(terminal(folder))
        nohup(folder)
        at_the_prompt(folder)
        not_saved(folder)
        locked += together(folder) + locked_new(folder)
    times.sort()
    assert times[3] < SOON, times
    print("sessions: 14 runs stopped by Ctrl-C, SIGINT, SIGTERM or SIGHUP, all saved; on the plain build the word about it "
          "came after %.0f to %.0f ms, median %.0f; %d programs kept out by the lock"
          % (1000 * times[0], 1000 * times[-1], 1000 * times[3], locked))
