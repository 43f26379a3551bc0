#!/usr/bin/env python3
"""The two other sides of `rams-replay serve` on loopback, for examples/serve.sh: a sender of one
channel, and a set-top that asks for a burst, joins the multicast and repairs what it lost. Python's
own library alone.

    loopback.py send LIVE MULTICAST SECONDS [FILE]    a stream of MPEG-TS in RTP (RFC 2250)
    loopback.py watch FEEDBACK MULTICAST SECONDS LOSS LOG    a set-top that loses LOSS in 100 packets
    loopback.py compare BOOK LOG    whether a book sends what the set-top got

The sender sends each packet twice: to the server's live port, and to a port that stands for the
multicast group. FILE is an MPEG transport stream; without one the packets are made up.
"""
import random
import socket
import struct
import sys
import time

HOST = "127.0.0.1"
SSRC, TYPE, RTX_TYPE = 0x11223344, 33, 99
# A packet has seven TS packets, as most senders do, and comes every 2.5 ms: 4.3 Mbit/s of media.
TS_PACKET, A_PACKET, EVERY = 188, 7 * 188, 0.0025


def made_up(count):
    """So many pieces of made-up TS packets, of which each 100th begins with a random access flag."""
    for i in range(count):
        flags = b"\x40" if i % 100 == 0 else b"\x00"
        first = b"\x47\x01\x00\x30" + b"\x01" + flags + struct.pack(">I", i)
        yield first.ljust(TS_PACKET, b"\xff") + (b"\x47\x1f\xff\x10".ljust(TS_PACKET, b"\xff")) * 6


def pieces_of(path, count):
    if not path:
        yield from made_up(count)
        return
    with open(path, "rb") as stream:
        for _ in range(count):
            piece = stream.read(A_PACKET)
            if len(piece) < A_PACKET:
                return
            yield piece


def send(live, multicast, seconds, path=None):
    """Sends the stream at an even pace, from sequence number 65,000 on, so that it goes around."""
    out = socket.socket(socket.AF_INET, socket.SOCK_DGRAM)
    began = time.monotonic()
    count = int(float(seconds) / EVERY)
    for i, piece in enumerate(pieces_of(path, count)):
        time.sleep(max(0.0, began + i * EVERY - time.monotonic()))
        header = struct.pack(">BBHII", 0x80, TYPE, (65000 + i) & 0xFFFF, (i * 225) & 0xFFFFFFFF, SSRC)
        for port in (live, multicast):
            out.sendto(header + piece, (HOST, int(port)))
    print(f"sender: {i + 1} packets of {len(header) + len(piece)} bytes in {time.monotonic() - began:.1f} s")


def feedback(fmt, fci, sender=0xC001):
    """A transport layer feedback message (RFC 4585, 6.2)."""
    words = 2 + len(fci) // 4
    return struct.pack(">BBHII", 0x80 | fmt, 205, words, sender, SSRC) + fci


def rams_request():
    """A RAMS-R (RFC 6285, 7.2) for a burst of at least 100 ms."""
    return feedback(6, struct.pack(">IHHI", 1 << 24, 2 << 8, 4, 100))


def rams_termination(number):
    """A RAMS-T (RFC 6285, 7.4): the first packet that came by multicast."""
    return feedback(6, struct.pack(">IHHI", 3 << 24, 61 << 8, 4, number))


def nacks(numbers):
    """Generic NACKs (RFC 4585, 6.2.1), a word for each number, at most 16 a datagram."""
    for at in range(0, len(numbers), 16):
        yield feedback(1, b"".join(struct.pack(">HH", n & 0xFFFF, 0) for n in numbers[at : at + 16]))


class SetTop:
    """A receiver of one channel. Its numbers go on where 16 bits go around."""

    def __init__(self, server, group, loss, log):
        self.server, self.group, self.loss, self.log = (HOST, int(server)), int(group), float(loss) / 100, log
        self.dice = random.Random(7)
        self.unicast = self.socket_at(0)
        self.multicast = None
        self.packets, self.first, self.newest = {}, None, None
        self.lost = self.repaired = self.burst = 0
        self.joined, self.joins_at, self.asked, self.told = None, None, {}, {}

    @staticmethod
    def socket_at(port):
        it = socket.socket(socket.AF_INET, socket.SOCK_DGRAM)
        it.setsockopt(socket.SOL_SOCKET, socket.SO_RCVBUF, 1 << 22)
        it.bind((HOST, port))
        it.setblocking(False)
        return it

    def say(self, what):
        print(f"set-top: {1000 * (time.monotonic() - self.began):6.0f} ms  {what}")

    def number_of(self, low):
        """The number with these 16 bits that is nearest to the newest one."""
        near = self.newest if self.newest is not None else 65536 + low
        ahead = (low - near) & 0xFFFF
        return near + ahead - (65536 if ahead >= 32768 else 0)

    def take(self, low, packet, by_burst):
        number = self.number_of(low)
        if self.first is None:
            self.first = number
            self.say(f"first packet of the burst, {low}")
        if self.dice.random() < self.loss and number not in self.asked:
            self.lost += 1
            self.newest = max(self.newest or number, number)
            return None
        if number in self.asked and number not in self.packets:
            self.repaired += 1
        self.burst += by_burst
        self.packets.setdefault(number, packet)
        self.newest = max(self.newest or number, number)
        return number

    def take_unicast(self, data):
        with open(self.log, "a") as log:
            print(self.unicast.getsockname()[1], data.hex(), file=log)
        if data[1] == 205:
            code = int.from_bytes(data[14:16], "big")
            self.say(f"RAMS-I {code}")
            if code == 200:
                self.join_when_told(data[16:])
            return
        low = int.from_bytes(data[12:14], "big")
        packet = bytes([data[0], data[1] & 0x80 | TYPE]) + data[12:14] + data[4:12] + data[14:]
        self.take(low, packet, self.joined is None)

    def join_when_told(self, tlvs):
        while tlvs:
            kind, size = tlvs[0], int.from_bytes(tlvs[2:4], "big")
            self.told[kind] = int.from_bytes(tlvs[4 : 4 + size], "big")
            tlvs = tlvs[4 + (size + 3) // 4 * 4 :]
        self.joins_at = time.monotonic() + self.told[33] / 1000
        self.say(f"may join after {self.told[33]} ms; the burst runs at {self.told[35] / 1e6:.1f} Mbit/s")

    def take_multicast(self, data):
        number = self.take(int.from_bytes(data[2:4], "big"), data, False)
        if self.joined is None and number is not None:
            self.joined = number
            self.unicast.sendto(rams_termination(number & 0xFFFFFFFF), self.server)
            self.say(f"joined at packet {number & 0xFFFF}, after {self.burst} of the burst")

    def ask(self, now):
        """Asks for what is missing between the first packet and 20 before the newest, again after 60 ms."""
        if self.first is None:
            return
        missing = [n for n in range(self.first, self.newest - 20) if n not in self.packets]
        due = [n for n in missing if now > self.asked.get(n, 0) + 0.06]
        self.asked.update((n, now) for n in due)
        for datagram in nacks(due):
            self.unicast.sendto(datagram, self.server)

    def watch(self, seconds):
        self.began = time.monotonic()
        self.unicast.sendto(rams_request(), self.server)
        ends = self.began + float(seconds)
        while (now := time.monotonic()) < ends:
            for it, take in ((self.unicast, self.take_unicast), (self.multicast, self.take_multicast)):
                while it:
                    try:
                        take(it.recv(2048))
                    except BlockingIOError:
                        break
            if self.joins_at and now >= self.joins_at and not self.multicast:
                self.multicast = self.socket_at(self.group)
            self.ask(now)
            time.sleep(0.002)
        return self.judge()

    def judge(self):
        """Whether it has the stream without a gap, but for the last packets, whose repairs may be on their way."""
        if self.first is None or self.joined is None:
            print("set-top: no burst came, or it never joined")
            return 1
        numbers = range(self.first, self.newest - 100)
        holes = [n for n in numbers if n not in self.packets]
        whole = b"".join(self.packets[n][12:] for n in numbers if n in self.packets)
        print(f"set-top: lost {self.lost}, repaired {self.repaired}; {len(numbers)} packets in order, {len(holes)} missing, {len(whole)} bytes of TS")
        return 1 if holes else 0


def watch(server, group, seconds, loss, log):
    open(log, "w").close()
    return SetTop(server, group, loss, log).watch(seconds)


def compare(book, log):
    """A set-top's datagrams are those that the book sends to it, in order; the network may have lost some."""
    with open(log) as lines:
        got = [line.split() for line in lines]
    with open(book) as lines:
        sent = [words[3:5] for words in map(str.split, lines) if words[2:3] == ["send"]]
    client = int.from_bytes(socket.inet_aton(HOST), "big") * 65536 + int(got[0][0])
    mine = [data for to, data in sent if int(to) == client]
    rest = iter(mine)
    in_order = all(data in rest for _, data in got)
    print(f"compare: the book sends {len(mine)} datagrams to the set-top, which got {len(got)}: " + ("the same, in order" if in_order else "NOT the same"))
    return 0 if in_order and len(got) == len(mine) else 1


if __name__ == "__main__":
    command = {"send": send, "watch": watch, "compare": compare}[sys.argv[1]]
    sys.exit(command(*sys.argv[2:]))
