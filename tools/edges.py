#!/usr/bin/env python3
"""Tries the program on real files, pipes and sockets, where no contract reaches.

    tools/edges.py [--program PATH] [--port PORT]

Each line is one trial: what is tried, and `ok`, or what came in place of what should. The status is 1
where one went wrong. The gate doesn't run this.
"""
import argparse
import os
import signal
import socket
import subprocess
import sys
import tempfile
import time

TOP = os.path.dirname(os.path.dirname(os.path.abspath(__file__)))
EXAMPLES = os.path.join(TOP, "examples")
NOWHERE = ("127.0.0.1", 1)
HEAD = open(os.path.join(EXAMPLES, "serve.head"), "rb").read()
TRACE = open(os.path.join(EXAMPLES, "catches_up.trace"), "rb").read()
LINES = HEAD[: HEAD.index(b"end\n")]
PACKET = bytes.fromhex("80a1000a0000000011223344") + bytes(1316)
REQUEST = bytes.fromhex("86cd00030000c0011122334401000000")
WRONG = []


def tell(what, came, wanted):
    good = came == wanted
    if not good:
        WRONG.append(what)
    print(f"{what}: {'ok' if good else f'{came}, not {wanted}'}", flush=True)


def status(words, **how):
    how = {"stdin": subprocess.DEVNULL, "stdout": subprocess.DEVNULL, "stderr": subprocess.DEVNULL, **how}
    return subprocess.run([PROGRAM, *words], timeout=60, **how).returncode


def run(words, text):
    ran = subprocess.run([PROGRAM, *words], input=text, stdout=subprocess.PIPE, stderr=subprocess.DEVNULL, timeout=60)
    return ran.returncode, ran.stdout


# ------------------------------------------------------------------ words, input and output

def words():
    for given in ([], ["run", "x"], ["walk"], ["serve", "1023", "1"], ["serve", "5000", "0"], ["make", "01", "1"], ["meet", ""]):
        tell(f"the words {given} are refused", run(given, TRACE), (2, b""))
    tell("no text is a missing line", run(["run"], b""), (5, b"rams-book 1\nrefused 1 order\n"))
    code, book = run(["run"], TRACE)
    tell("a trace is served", (code, book[-8:]), (0, b"done 11\n"))


def too_long():
    """A million events are served, and one more isn't."""
    for count, wanted in ((1_000_000, (0, b"done 1000000\n")), (1_000_001, (7, b"too-long\n"))):
        code, book = run(["run"], LINES + b"tick\n" * count + b"end\n")
        tell(f"{count} events", (code, book[-len(wanted[1]) :]), wanted)


def streams():
    with open("/dev/full", "wb") as full:
        tell("a full disk", status(["make", "7", "4"], stdout=full), 4)
    where = os.open("/", os.O_RDONLY)
    tell("a folder as input", status(["run"], stdin=where), 3)
    os.close(where)
    reading, writing = os.pipe()
    os.close(reading)
    tell("a closed pipe", status(["make", "7", "4"], stdout=writing), 4)
    os.close(writing)
    tell("input that is closed", status(["run"], stdin=None, preexec_fn=lambda: os.close(0)), 3)


def interrupted():
    """Signals that a handler-less program ignores or continues after don't end a read or a write."""
    child = subprocess.Popen([PROGRAM, "run"], stdin=subprocess.PIPE, stdout=subprocess.PIPE)
    for piece in (TRACE[:100], TRACE[100:]):
        for each in (signal.SIGSTOP, signal.SIGCONT, signal.SIGWINCH):
            child.send_signal(each)
            time.sleep(0.02)
        child.stdin.write(piece)
        child.stdin.flush()
    child.stdin.close()
    book = child.stdout.read()
    tell("a stop and a signal in mid-stream", (child.wait(), book), run(["run"], TRACE))


# ------------------------------------------------------------------ the wire

class Server:
    """A server of this head for some turns; its journal is read at its end."""

    def __init__(self, turns):
        self.child = subprocess.Popen([PROGRAM, "serve", str(PORT), str(turns)], stdin=subprocess.PIPE, stdout=subprocess.PIPE, stderr=subprocess.DEVNULL)
        self.child.stdin.write(HEAD)
        self.child.stdin.close()
        time.sleep(0.3)

    def end(self):
        journal = self.child.stdout.read()
        return self.child.wait(), journal


def lines_of(journal, kind):
    return [line.split(b" ") for line in journal.splitlines() if line.startswith(kind)]


def taken_port():
    with socket.socket(socket.AF_INET, socket.SOCK_DGRAM) as other:
        other.bind(("127.0.0.1", PORT + 7))
        tell("a port in use", run(["serve", str(PORT), "9"], HEAD), (6, LINES))


def sizes():
    """Datagrams of 0, 1, 2,000, 2,001 and 65,507 bytes: each is an event, of at most 2,000 bytes."""
    server = Server(600)
    with socket.socket(socket.AF_INET, socket.SOCK_DGRAM) as client:
        for size in (0, 1, 2_000, 2_001, 65_507):
            client.sendto(bytes(size), ("127.0.0.1", PORT))
            client.sendto(bytes(size), ("127.0.0.1", PORT + 1))
    code, journal = server.end()
    came = [[0 if line[-1] == b"-" else len(line[-1]) // 2 for line in lines_of(journal, kind)] for kind in (b"live", b"fb")]
    tell("datagrams of 0 to 65,507 bytes", (code, came), (0, [[0, 1, 2_000, 2_000, 2_000]] * 2))
    tell("their journal is a trace", run(["run"], journal)[0], 0)


def unreachable():
    """A client that asks and goes: what is sent to it comes back as an error, which ends nothing and
    costs the next client nothing."""
    server = Server(900)
    with socket.socket(socket.AF_INET, socket.SOCK_DGRAM) as gone:
        gone.sendto(PACKET, ("127.0.0.1", PORT))
        gone.sendto(REQUEST, ("127.0.0.1", PORT + 1))
    time.sleep(0.1)
    with socket.socket(socket.AF_INET, socket.SOCK_DGRAM) as client:
        client.settimeout(1)
        client.sendto(REQUEST, ("127.0.0.1", PORT + 1))
        try:
            answer = client.recv(2_000)[:2].hex()
        except TimeoutError:
            answer = "nothing"
    code, journal = server.end()
    tell("a client that is gone", (code, answer, len(lines_of(journal, b"fb"))), (0, "86cd", 2))


def from_port_0():
    """A datagram whose sender is port 0, where a raw socket can be had."""
    try:
        raw = socket.socket(socket.AF_INET, socket.SOCK_RAW, socket.IPPROTO_UDP)
    except PermissionError:
        print("from port 0: not tried, no raw socket here")
        return
    server = Server(600)
    with raw:
        length = 8 + len(REQUEST)
        for way in ((PORT, PACKET), (PORT + 1, REQUEST)):
            length = 8 + len(way[1])
            raw.sendto((0).to_bytes(2, "big") + way[0].to_bytes(2, "big") + length.to_bytes(2, "big") + b"\0\0" + way[1], ("127.0.0.1", 0))
            time.sleep(0.05)
    code, journal = server.end()
    came = [int(line[2]) % 65536 for line in lines_of(journal, b"fb")]
    tell("a datagram from port 0", (code, came), (0, [0]))


def main():
    global PROGRAM, PORT
    given = argparse.ArgumentParser(description=__doc__, formatter_class=argparse.RawDescriptionHelpFormatter)
    given.add_argument("--program", default=os.path.join(TOP, "crates/rams_program/out/rams_program"))
    given.add_argument("--port", type=int, default=24_000)
    given = given.parse_args()
    PROGRAM, PORT = given.program, given.port
    for trial in (words, too_long, streams, interrupted, taken_port, sizes, unreachable, from_port_0):
        trial()
    print(f"{len(WRONG)} wrong")
    sys.exit(bool(WRONG))


if __name__ == "__main__":
    main()
