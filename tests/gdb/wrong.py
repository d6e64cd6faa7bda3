"""A stub that is wrong on purpose: it stands between gdb and lavushmir-gdb.

    wrong.py FAULT PROGRAM STATION

late      a watch stops behind the store and not before it
early     no fault: a 0x03 comes while the machine stands, behind 20 steps
deaf      the same, and it is dropped
unbroken  a 0x03 of gdb is dropped
endless   it does not say where the journal begins
forgets   detach does not save
silent    a watch never hits
none      nothing"""
import os
import re
import subprocess
import sys
import threading

fault, program, station = sys.argv[1:4]
stub = subprocess.Popen([program, station], stdin=subprocess.PIPE, stdout=subprocess.PIPE)
last = b''  # what gdb sent last
wait_for_own = 0  # replies to packets of our own


def framed(payload):
    return b'$' + payload + b'#%02x' % (sum(payload) % 256)


def to_stub(data):
    stub.stdin.write(data)
    stub.stdin.flush()


def changed(payload):
    """What gdb is told in place of a reply; None: nothing yet."""
    global wait_for_own
    if wait_for_own:
        wait_for_own -= 1
        return payload if wait_for_own == 0 else None
    if fault == 'late' and b'watch:' in payload:
        to_stub(framed(b'z2,' + last_watch) + framed(b'bs' if last == b'bc' else b's'))
        wait_for_own = 2
        return None
    if fault == 'endless':
        payload = payload.replace(b'replaylog:begin;', b'')
    return payload


def from_stub():
    rest = b''
    while True:
        data = os.read(stub.stdout.fileno(), 65536)
        if not data:
            os._exit(0)
        rest += data
        while True:
            m = re.search(rb'\$([^#]*)#..', rest, re.S)
            if not m:
                break
            said = changed(m.group(1))
            before, rest = rest[:m.start()], rest[m.end():]
            os.write(1, before + (framed(said) if said is not None else b''))


last_watch = b''
steps = 0


def heard(packet):
    """What the stub is told in place of a packet."""
    global last, last_watch, steps
    last = packet
    if packet.startswith(b'vCont;s'):
        steps += 1
        if fault == 'early' and steps == 21:
            to_stub(b'\x03')
    if packet.startswith(b'Z2,'):
        last_watch = packet[3:]
        if fault == 'silent':
            return b'Z0,0,4'
    if fault == 'forgets' and packet.startswith(b'D'):
        return b'H0'
    return packet


def from_gdb():
    rest = b''
    while True:
        data = os.read(0, 65536)
        if not data:
            if fault == 'forgets':
                stub.kill()
                os._exit(0)
            break
        rest += data
        while rest:
            m = re.match(rb'\$([^#]*)#..', rest, re.S)
            if m:
                to_stub(framed(heard(m.group(1))))
                rest = rest[m.end():]
            elif rest[:1] == b'$':
                break
            else:
                if not (fault == 'unbroken' and rest[:1] == b'\x03'):
                    to_stub(rest[:1])
                rest = rest[1:]
    stub.stdin.close()
    stub.wait()
    os._exit(0)


threading.Thread(target=from_stub, daemon=True).start()
from_gdb()
