#!/usr/bin/env python3
"""Loads a running server on loopback, and prints what a datagram costs it and how many it misses.

    bench/load.py [--program PATH] [--channels 1,8,64] [--rates 20,60] [--together 1,20]
                  [--count N] [--port PORT]

A load is N live packets of 1,328 bytes (120,000), spread over so many channels, at so many in each
millisecond, one by one or several together (as a network card brings them; here by UDP's segments). With
repairs, one of 16 clients asks for 68 packets every few milliseconds while the packets come at 2 a
millisecond, and all take what comes back. A row has the share of datagrams that the server missed (those
that its journal hasn't), its processor time for each datagram that came (the program's own and the
system's) and for each that went out, its most memory, and whether `run` answers the journal with as many
datagrams as went out. The server's journal goes to a file.
"""
import argparse
import multiprocessing
import os
import select
import socket
import struct
import subprocess
import tempfile
import time
from itertools import product

TOP = os.path.dirname(os.path.dirname(os.path.abspath(__file__)))
CHANNEL = (
    "channel {id} ssrc 11223344 pt 33 rtx 99 server aabbccdd seq0 0 ring 4096 window 8 access marker share 15000000 "
    "reserve 14000000 burst 900000 declared 400000 minwire 1358 limit 500 idle 100000 clients 64\n"
)
SIZE, TURNS, CLIENTS, ASKED = 1328, 500_000, 16, 68
UDP_SEGMENT = 103


def head(channels):
    return "rams-trace 1 tick 10 link 1000000000\n" + "".join(CHANNEL.format(id=i + 1) for i in range(channels)) + "end\n"


def packet(i):
    """Packet i of a channel (RFC 3550, 5.1)."""
    return struct.pack(">BBHII", 0x80, 0xA1 if i % 400 == 0 else 0x21, i & 0xFFFF, i * 225 & 0xFFFFFFFF, 0x11223344) + bytes(SIZE - 12)


def nack(numbers):
    """A generic NACK (RFC 4585, 6.2.1) of 68 numbers that follow one another."""
    words = b"".join(struct.pack(">HH", first & 0xFFFF, 0xFFFF) for first in range(numbers, numbers + ASKED, 17))
    return struct.pack(">BBHII", 0x81, 205, 2 + len(words) // 4, 0x0000C001, 0x11223344) + words


def sender_to(place, together):
    """A socket whose calls send so many packets, each a datagram (Linux, UDP_SEGMENT)."""
    sender = socket.socket(socket.AF_INET, socket.SOCK_DGRAM)
    sender.connect(place)
    if together > 1:
        sender.setsockopt(socket.IPPROTO_UDP, UDP_SEGMENT, SIZE)
    return sender


def send(port, channels, rate, together, count, told):
    """Sends `count` live packets over the channels, `rate` a millisecond; tells how far it is."""
    senders = [sender_to(("127.0.0.1", port + 2 * i), together) for i in range(channels)]
    packets = [packet(i) for i in range(65536)]
    began = time.perf_counter()
    for call in range(count // together):
        first = call // channels * together
        while time.perf_counter() < began + call * together // rate / 1000:
            pass
        senders[call % channels].send(b"".join(packets[i & 0xFFFF] for i in range(first, first + together)))
        told.value = first
    told.value = -1


def ask(port, told, came):
    """16 clients that ask in turn for what was sent last, and count what comes back."""
    clients = [socket.socket(socket.AF_INET, socket.SOCK_DGRAM) for _ in range(CLIENTS)]
    for each in clients:
        each.setsockopt(socket.SOL_SOCKET, socket.SO_RCVBUF, 1 << 22)
        each.bind(("127.0.0.1", 0))
        each.setblocking(False)
    turn, quiet = 0, 0
    while quiet < 200:
        sent = told.value
        if sent > 200 and turn % 4 == 0:
            clients[turn // 4 % CLIENTS].sendto(nack(sent - 100), ("127.0.0.1", port + 1))
        turn += 1
        ready = select.select(clients, [], [], 0.001)[0]
        quiet = quiet + 1 if sent < 0 and not ready else 0
        for each in ready:
            try:
                while True:
                    each.recv(2000)
                    came.value += 1
            except BlockingIOError:
                pass


def serve(program, port, channels, rate, together, count, repairs, room):
    """Runs a server under this load; returns what it did."""
    journal = os.path.join(room, "journal")
    with open(os.path.join(room, "head"), "w") as it:
        it.write(head(channels))
    with open(os.path.join(room, "head")) as source, open(journal, "wb") as sink:
        server = subprocess.Popen([program, "serve", str(port), str(TURNS)], stdin=source, stdout=sink, stderr=subprocess.DEVNULL)
    time.sleep(0.3)
    told, came = multiprocessing.Value("q", 0), multiprocessing.Value("q", 0)
    work = [multiprocessing.Process(target=send, args=(port, channels, rate, together, count, told))]
    if repairs:
        work.append(multiprocessing.Process(target=ask, args=(port, told, came)))
    for each in work:
        each.start()
    for each in work:
        each.join()
    time.sleep(0.3)
    server.terminate()
    _, _, used = os.wait4(server.pid, 0)
    with open(journal, "rb") as it:
        kinds = [line[:2] for line in it]
    live, feedback = kinds.count(b"li"), kinds.count(b"fb")
    sent_again = 0
    if repairs:
        with open(journal, "ab") as it:
            it.write(b"end\n")
        with open(journal, "rb") as source:
            book = subprocess.run([program, "run"], stdin=source, stdout=subprocess.PIPE).stdout
        sent_again = sum(b" send " in line for line in book.splitlines())
    return dict(live=live, feedback=feedback, own=used.ru_utime, cpu=used.ru_utime + used.ru_stime, memory=used.ru_maxrss / 1024, out=came.value, book=sent_again)


def row(*cells):
    print("| " + " | ".join(str(it) for it in cells) + " |", flush=True)


def main():
    words = argparse.ArgumentParser(description=__doc__, formatter_class=argparse.RawDescriptionHelpFormatter)
    words.add_argument("--program", default=os.path.join(TOP, "crates/rams_program/out/rams_program"))
    words.add_argument("--channels", default="1,8,64")
    words.add_argument("--rates", default="20,60")
    words.add_argument("--together", default="1,20")
    words.add_argument("--count", type=int, default=120_000)
    words.add_argument("--port", type=int, default=23_000)
    given = words.parse_args()
    row("Channels", "Packets a ms", "Together", "Missed", "Processor time a datagram in, own and system's", "a repair out", "Most memory", "Out, and by `run`")
    row(*["---"] * 8)
    with tempfile.TemporaryDirectory(prefix="rams-load-") as room:
        for channels, rate, together in product(*(map(int, it.split(",")) for it in (given.channels, given.rates, given.together))):
            did = serve(given.program, given.port, channels, rate, together, given.count, False, room)
            came = max(did["live"], 1)
            own, system = 1e6 * did["own"] / came, 1e6 * (did["cpu"] - did["own"]) / came
            row(channels, rate, together, f"{100 * (1 - did['live'] / given.count):.2f} %", f"{own:.2f} + {system:.2f} µs", "", f"{did['memory']:.0f} MB", "")
        did = serve(given.program, given.port, 1, 2, 1, given.count // 8, True, room)
        alone = serve(given.program, given.port, 1, 2, 1, given.count // 8, False, room)
        cost = (did["cpu"] - alone["cpu"]) / max(did["out"], 1)
        row(1, "2, and NACKs", 1, f"{100 * (1 - did['live'] / (given.count // 8)):.2f} %", "", f"{1e6 * cost:.2f} µs", f"{did['memory']:.0f} MB", f"{did['out']}, {did['book']}")


if __name__ == "__main__":
    main()
