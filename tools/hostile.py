#!/usr/bin/env python3
"""Sends the program datagrams that are nearly right, floods and greedy requests, and looks at what it does.

    tools/hostile.py [--program PATH] [--port PORT] [--seconds N] [--seed N]

`run` serves a trace of 4,000 of them: its status has to be 0, and no client may be sent more in a
tick than its budget. Then a server on loopback is sent such datagrams for N seconds (60), from 200 sockets,
while one honest set-top asks for a repair a tick: its journal has to replay to just what the set-top
got, and its memory stays what its channel line allows. Last comes what one small datagram brings about
at most. The status is 1 where something is wrong. The gate doesn't run this.
"""
import argparse
import os
import random
import socket
import struct
import subprocess
import sys
import tempfile
import threading
import time

TOP = os.path.dirname(os.path.dirname(os.path.abspath(__file__)))
SSRC, BURST, SHARE = 0x11223344, 20_000, 100_000
HEAD = (
    "rams-trace 1 tick 10 link 1000000\n"
    f"channel 7 ssrc {SSRC:08x} pt 33 rtx 99 server aabbccdd seq0 500 ring 2048 window 8 access marker share {SHARE} "
    f"reserve 30000 burst {BURST} declared 13580 minwire 1358 limit 300 idle 500 clients 100\n"
)


def packet(i):
    return struct.pack(">BBHII", 0x80, 0xA1 if i % 100 == 0 else 0x21, i & 0xFFFF, i * 225 & 0xFFFFFFFF, SSRC) + bytes(1316)


def feedback(fmt, fci, kind=205, sender=0xC001, media=SSRC):
    words = 2 + len(fci) // 4
    return struct.pack(">BBHII", 0x80 | fmt, kind, words, sender, media) + fci


def tlv(kind, value):
    return struct.pack(">BBH", kind, 0, len(value)) + value + bytes(-len(value) % 4)


def right(dice, newest):
    """A datagram as a set-top may send it."""
    n = (newest - dice.randrange(3000)) & 0xFFFF
    which = dice.randrange(6)
    if which == 0:
        return feedback(6, b"\1\0\0\0" + tlv(1, b""))
    if which == 1:
        return feedback(6, b"\1\0\0\0" + tlv(2, struct.pack(">I", dice.choice((0, 1, 400, 2**32 - 1)))) + tlv(3, struct.pack(">I", dice.randrange(5000))))
    if which == 2:
        return feedback(6, b"\1\0\0\0" + tlv(4, struct.pack(">Q", dice.choice((0, 1, 10**7, 2**64 - 1)))))
    if which == 3:
        return feedback(6, b"\3\0\0\0" + tlv(61, struct.pack(">I", n)))
    if which == 4:
        return feedback(1, struct.pack(">HH", n, dice.choice((0, 1, 0x8000, 0xFFFF))) * dice.choice((1, 2, 30)))
    return struct.pack(">BBHI", 0x81, 203, 1, 0xC001)


def nearly(dice, newest):
    """The same with a field at its edge, a length one off, cut short, or with others before and behind."""
    it = bytearray(right(dice, newest))
    which = dice.randrange(8)
    if which == 0:
        it[2:4] = struct.pack(">H", (struct.unpack(">H", it[2:4])[0] + dice.choice((-1, 1, 100))) & 0xFFFF)
    elif which == 1:
        it = it[: dice.randrange(len(it) + 1)]
    elif which == 2:
        it[dice.randrange(len(it))] ^= 1 << dice.randrange(8)
    elif which == 3:
        it = bytearray(b"".join(right(dice, newest) for _ in range(dice.randrange(2, 30))))
    elif which == 4:
        # as many numbers as a datagram can name
        it = bytearray(feedback(1, b"".join(struct.pack(">HH", (newest - 17 * k) & 0xFFFF, 0xFFFF) for k in range(480))))
    elif which == 5:
        it = bytearray(struct.pack(">BBHI", 0x80, 201, 1, 1)) + it + bytes(dice.randrange(5))
    elif which == 6:
        it[0] |= 0x20
        it[-1] = dice.choice((0, 3, 4, 8, 255))
    return bytes(it[:2000])


# ------------------------------------------------------------------ a trace

def trace(dice, count):
    newest = 0
    yield HEAD
    for i in range(count):
        if i % 20 == 0:
            for newest in range(newest + 1, newest + 11):
                yield f"live 7 {packet(newest).hex()}\n"
            yield "tick\n"
        client = dice.choice((1, dice.randrange(100), dice.randrange(2**48)))
        yield f"fb 7 {client} {nearly(dice, newest).hex() or '-'}\n"
    yield "tick\nend\n"


def serve_trace(program, seed, count):
    """Serves a trace, and returns what is wrong with its book."""
    text = "".join(trace(random.Random(seed), count)).encode()
    ran = subprocess.Popen([program, "run"], stdin=subprocess.PIPE, stdout=subprocess.PIPE)
    writer = threading.Thread(target=lambda: (ran.stdin.write(text), ran.stdin.close()))
    writer.start()
    wrong, tick, sent = [], None, {}
    lines = 0
    for line in ran.stdout:
        lines += 1
        words = line.split(b" ")
        # (a retransmission begins with the version, and has the type of retransmissions)
        if len(words) > 4 and words[2] == b"send" and words[4][:1] == b"8" and int(words[4][2:4], 16) & 0x7F == 99:
            if words[0] != tick:
                tick, sent = words[0], {}
            sent[words[3]] = sent.get(words[3], 0) + (len(words[4]) - 1) // 2 + 28
            if sent[words[3]] > BURST or sum(sent.values()) > SHARE:
                wrong.append(f"event {tick.decode()}: a budget is exceeded")
    writer.join()
    code = ran.wait()
    if code:
        wrong.append(f"status {code}")
    print(f"a trace of {count} datagrams, {lines} lines of its book: {wrong[:3] or 'ok'}", flush=True)
    return wrong


# ------------------------------------------------------------------ a server

def attack(seed, port, state):
    dice = random.Random(seed)
    sockets = [socket.socket(socket.AF_INET, socket.SOCK_DGRAM) for _ in range(200)]
    for each in sockets:
        each.bind(("127.0.0.1", 0))
    while state["goes on"]:
        for _ in range(20):
            dice.choice(sockets).sendto(nearly(dice, state["newest"]), ("127.0.0.1", port + dice.choice((0, 1, 1, 1, 3))))
            state["attacks"] += 1
        time.sleep(0.002)


def feed(port, state):
    out = socket.socket(socket.AF_INET, socket.SOCK_DGRAM)
    began = time.monotonic()
    while state["goes on"]:
        state["newest"] += 1
        out.sendto(packet(state["newest"]), ("127.0.0.1", port))
        time.sleep(max(0.0, began + state["newest"] / 1000 - time.monotonic()))


def ask(port, state, got):
    """The honest set-top: one packet in each 10 ms."""
    client = socket.socket(socket.AF_INET, socket.SOCK_DGRAM)
    client.setsockopt(socket.SOL_SOCKET, socket.SO_RCVBUF, 1 << 22)
    client.bind(("127.0.0.1", 0))
    client.settimeout(0.01)
    state["client"] = 0x7F000001 * 65536 + client.getsockname()[1]
    until = None
    while until is None or time.monotonic() < until:
        if until is None:
            client.sendto(feedback(1, struct.pack(">HH", (state["newest"] - 20) & 0xFFFF, 0)), ("127.0.0.1", port + 1))
            until = None if state["goes on"] else time.monotonic() + 1
        try:
            while True:
                got.append(client.recv(2000))
        except TimeoutError:
            pass


def replayed(program, journal, mine):
    """What `run` sends to one client for the whole lines of a journal, its last line, and its status. (The
    book of an attack is long, so its lines are looked at one by one.)"""
    size = journal.seek(0, os.SEEK_END)
    journal.seek(max(size - 5_000, 0))
    size -= len(journal.read().rpartition(b"\n")[2])
    journal.truncate(size)
    journal.seek(size)
    journal.write(b"end\n")
    journal.seek(0)
    ran = subprocess.Popen([program, "run"], stdin=journal, stdout=subprocess.PIPE)
    sent, last = [], b""
    for last in ran.stdout:
        if mine in last:
            sent.append(bytes.fromhex(last.split()[4].decode()))
    return sent, last, ran.wait()


def serve_attacked(program, seed, port, seconds):
    """Attacks a server, and returns what is wrong with what it did."""
    state, got = {"goes on": True, "newest": 0, "attacks": 0, "client": 0}, []
    journal = tempfile.TemporaryFile()
    server = subprocess.Popen([program, "serve", str(port), "500000"], stdin=subprocess.PIPE, stdout=journal, stderr=subprocess.DEVNULL)
    server.stdin.write((HEAD + "end\n").encode())
    server.stdin.close()
    work = [threading.Thread(target=attack, args=(seed, port, state)), threading.Thread(target=feed, args=(port, state)), threading.Thread(target=ask, args=(port, state, got))]
    time.sleep(0.3)
    for each in work:
        each.start()
    time.sleep(seconds)
    is_alive = server.poll() is None
    with open(f"/proc/{server.pid}/status") as it:
        memory = next(int(line.split()[1]) for line in it if line.startswith("VmHWM")) / 1024
    state["goes on"] = False
    for each in work:
        each.join()
    time.sleep(0.2)
    server.terminate()
    server.wait()
    sent, last, code = replayed(program, journal, b" send %d " % state["client"])
    wrong = []
    if not is_alive:
        wrong.append("the server ended")
    if code:
        wrong.append(f"its journal is no trace: {last}")
    if sent != got:
        wrong.append(f"the honest set-top got {len(got)} datagrams, and {len(sent)} were sent to it")
    if memory > 64:
        wrong.append(f"{memory:.0f} MB")
    journal.seek(0)
    feedbacks = sum(line.startswith(b"fb ") for line in journal)
    print(f"a server, {seconds} s: {state['attacks']} datagrams against it, {feedbacks} of feedback in its journal, {len(got)} repairs to the honest set-top, {memory:.0f} MB: {wrong or 'ok'}", flush=True)
    return wrong


# ------------------------------------------------------------------ what one datagram brings about

def amplified(program, name, datagram, ticks):
    lines = [HEAD, *(f"live 7 {packet(i).hex()}\n" for i in range(1, 1501)), f"fb 7 5 {datagram.hex()}\n"]
    for tick in range(ticks):
        lines += [f"live 7 {packet(1501 + 10 * tick + i).hex()}\n" for i in range(10)] + ["tick\n"]
    book = subprocess.run([program, "run"], input="".join([*lines, "end\n"]).encode(), stdout=subprocess.PIPE).stdout
    sent = [(len(line.split()[4]) // 2 + 28) for line in book.splitlines() if b" send " in line]
    came = len(datagram) + 28
    print(f"{name}: {came} bytes in, {len(sent)} datagrams of {sum(sent)} bytes out, {sum(sent) / came:.0f} times", flush=True)


def main():
    given = argparse.ArgumentParser(description=__doc__, formatter_class=argparse.RawDescriptionHelpFormatter)
    given.add_argument("--program", default=os.path.join(TOP, "crates/rams_program/out/rams_program"))
    given.add_argument("--port", type=int, default=26_000)
    given.add_argument("--seconds", type=int, default=60)
    given.add_argument("--seed", type=int, default=20261128)
    given = given.parse_args()
    wrong = serve_trace(given.program, given.seed, 4_000)
    wrong += serve_attacked(given.program, given.seed, given.port, given.seconds)
    amplified(given.program, "a RAMS-R, never stopped", feedback(6, b"\1\0\0\0"), 301)
    amplified(given.program, "a NACK of one word", feedback(1, struct.pack(">HH", 1400, 0xFFFF)), 10)
    amplified(given.program, "a NACK of 480 words", feedback(1, b"".join(struct.pack(">HH", 1500 - 17 * k & 0xFFFF, 0xFFFF) for k in range(480))), 60)
    sys.exit(bool(wrong))


if __name__ == "__main__":
    main()
