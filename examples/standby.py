#!/usr/bin/env python3
"""The other sides of a takeover on loopback, for examples/standby.sh: a sender of one channel and
eight set-tops, and the judge of what they got. Python's own library alone.

    standby.py load OLD NEW FOLDER SEND SERVER    a sender and eight set-tops; SEND is `again` or `once`
    standby.py judge FOLDER                       whether nothing is missing but what was in flight
    standby.py table FILE                         least, median and greatest of the gaps

OLD and NEW are the first ports of the server and of who takes over from it. When all eight set-tops
are in the middle of their bursts `load` kills the process SERVER, half of the times right at the first
datagram of a tick, else at any moment of it. It writes a line to FOLDER/go then, and turns to NEW at the
signal USR1. FOLDER gets the moment (`killed`) and what the set-tops got (`got`, a line for each
datagram: ms, port, bytes).

The sender asks after each packet whether the port refused it (ICMP, as loopback tells at once). With
`again` it then keeps what comes, and when the port is there again, or NEW's is, sends from 20
packets before the first refused one on: those may have come without being in the journal yet.
"""
import multiprocessing
import os
import random
import select
import signal
import socket
import statistics
import struct
import sys
import time

from loopback import EVERY, HOST, SSRC, TYPE, feedback, made_up, nacks, rams_termination

# How many set-tops, what part of the packets they lose, how far the sender goes back, and how many of the
# last packets aren't judged, since their repairs may be on their way.
SET_TOPS, LOSS, BACK, LAST = 8, 0.02, 20, 250
# The sender's time before the set-tops ask; what all have of their bursts at least when the server is killed; how
# long they watch after that, and for how long at the end they ask for nothing more.
AHEAD_S, IN_BURST, AFTER_S, QUIET_S = 2.0, 120, 2.0, 0.3
TICK_MS = 10
# Where the servers and the set-tops are: on loopback, but in two_machines.sh.
SERVER, OWN = os.environ.get("RAMS_SERVER", HOST), os.environ.get("RAMS_SET_TOPS", HOST)


def packets_of(count):
    for i, piece in enumerate(made_up(count)):
        yield struct.pack(">BBHII", 0x80, TYPE, (65000 + i) & 0xFFFF, (i * 225) & 0xFFFFFFFF, SSRC) + piece


def is_taken(out, packet):
    """Sends a packet, and tells whether the port took it, as far as loopback says."""
    try:
        out.send(packet)
    except ConnectionRefusedError:
        return False
    return out.getsockopt(socket.SOL_SOCKET, socket.SO_ERROR) == 0


def send(old, new, group, moved, over, goes_again):
    """The sender: to the server's live port, and to the port that stands for the multicast group."""
    packets = list(packets_of(8000))
    out, multicast = (socket.socket(socket.AF_INET, socket.SOCK_DGRAM) for _ in range(2))
    out.connect((SERVER, old))
    at, is_down, has_turned, began = 0, False, False, time.monotonic()
    for i, packet in enumerate(packets):
        time.sleep(max(0.0, began + i * EVERY - time.monotonic()))
        if over.value:
            return
        multicast.sendto(packet, (HOST, group))
        if moved.value and not has_turned:
            out.connect((SERVER, new))
            at, has_turned = at if is_down else max(0, at - BACK), True
        if not goes_again:
            is_taken(out, packet)
            continue
        # `at` is the next packet to send, and `is_down` whether it went back already for this outage.
        while at <= i:
            if not is_taken(out, packets[at]):
                at, is_down = at if is_down else max(0, at - BACK), True
                break
            at += 1
            is_down = is_down and at <= i


def now_ms():
    return 1000 * time.monotonic()


def socket_at(host):
    it = socket.socket(socket.AF_INET, socket.SOCK_DGRAM)
    it.setsockopt(socket.SOL_SOCKET, socket.SO_RCVBUF, 1 << 22)
    it.bind((host, 0))
    it.setblocking(False)
    return it


class Watcher:
    """A set-top: it asks for a burst, joins when it may, and asks for what it lost."""

    def __init__(self, place, server, host=OWN):
        self.server, self.dice, self.unicast = server, random.Random(place), socket_at(host)
        self.port = self.unicast.getsockname()[1]
        self.packets, self.first, self.newest, self.whole = {}, None, None, None
        self.burst = self.lost = self.repaired = self.by_unicast = 0
        self.joins_at = self.joined = self.ended = None
        self.asked, self.got, self.stopped_at, self.heard_at, self.empty = {}, [], 0.0, 0.0, 0
        self.ssrc = 0xC001 + place

    def tell(self, datagram):
        self.unicast.sendto(datagram, (SERVER, self.server()))

    def request(self):
        """A RAMS-R (RFC 6285, 7.2) for a burst of at least 1,000 ms."""
        self.tell(feedback(6, struct.pack(">IHHI", 1 << 24, 2 << 8, 4, 1000), self.ssrc))

    def number_of(self, low):
        near = self.newest if self.newest is not None else 65536 + low
        ahead = (low - near) & 0xFFFF
        return near + ahead - (65536 if ahead >= 32768 else 0)

    def take(self, low, packet):
        number = self.number_of(low)
        if self.first is None:
            self.first = self.whole = number
        self.newest = max(self.newest or number, number)
        if number < self.first or number in self.packets:
            return None
        if number not in self.asked and self.dice.random() < LOSS:
            self.lost += 1
            return None
        self.repaired += number in self.asked
        self.packets[number] = packet
        return number

    def take_unicast(self, data, ms):
        if not data:  # (a balancer sends such where its server is gone)
            self.empty += 1
            return
        self.got.append((ms, data))
        self.heard_at = ms
        if data[1] == 205:
            code = int.from_bytes(data[14:16], "big")
            if code == 200:
                self.joins_at = ms + told(data[16:])[33]
            elif code in (201, 502):
                self.ended = code
            return
        self.burst += 1
        low = int.from_bytes(data[12:14], "big")
        self.take(low, bytes([data[0], data[1] & 0x80 | TYPE]) + data[12:14] + data[4:12] + data[14:])
        self.by_unicast = max(self.by_unicast, self.number_of(low))

    def take_multicast(self, data, ms):
        if self.joins_at is None or ms < self.joins_at:
            return
        number = self.take(int.from_bytes(data[2:4], "big"), data)
        if self.joined is None and number is not None:
            self.joined = number

    def ask(self, ms):
        """Names the packet it joined with until the burst is over, asks for what it lacks, and for a burst anew
        where nothing came for 500 ms."""
        if self.first is None:
            return
        if self.ended is None and ms > self.heard_at + 500:
            self.heard_at = ms
            self.request()
        if self.joined is not None and self.ended is None and ms > self.stopped_at + 60:
            self.stopped_at = ms
            self.tell(rams_termination(self.joined & 0xFFFFFFFF))
        while self.whole in self.packets:
            self.whole += 1
        last = self.newest - 20
        if self.ended is None:
            last = min(last, self.by_unicast)
        due = [n for n in range(self.whole, last) if n not in self.packets and ms > self.asked.get(n, 0) + 60][:64]
        self.asked.update((n, ms) for n in due)
        for datagram in nacks(due):
            self.tell(datagram)

    def holes(self):
        """What is missing but for the last packets, whose repairs may be on their way."""
        return [n for n in range(self.first, self.newest - LAST) if n not in self.packets]

    def is_the_source(self):
        source = {(65000 + i) & 0xFFFF: packet for i, packet in enumerate(packets_of(8000))}
        return all(source[n & 0xFFFF] == packet for n, packet in self.packets.items())


def told(tlvs):
    """The TLVs of a RAMS-I (RFC 6285, 7.3) whose values are numbers."""
    values = {}
    while tlvs:
        size = int.from_bytes(tlvs[2:4], "big")
        values[tlvs[0]] = int.from_bytes(tlvs[4 : 4 + size], "big")
        tlvs = tlvs[4 + (size + 3) // 4 * 4 :]
    return values


def watch(watchers, group, server, folder):
    """The set-tops, until some time after the kill. Answers whether that came."""
    begins, has_begun, is_killed, ends, is_quiet = now_ms() + 1000 * AHEAD_S, False, False, None, False
    while (ms := now_ms()) < (ends or begins + 5000):
        if not has_begun and ms >= begins:
            has_begun = True
            for it in watchers:
                it.request()
        ready = select.select([group] + [w.unicast for w in watchers], [], [], 0.002)[0]
        is_first, is_quiet = is_quiet and ready not in ([], [group]), ready in ([], [group])
        if not is_killed and is_first and all(it.burst >= IN_BURST for it in watchers):
            kill(server, folder)
            is_killed, ends = True, ms + 1000 * AFTER_S
        for it in ready:
            drain(it, group, watchers)
        if ends is None or ms < ends - 1000 * QUIET_S:
            for it in watchers:
                it.ask(ms)
    return is_killed


def load(old, new, folder, goes_again, server):
    old, new, moved, over = int(old), int(new), multiprocessing.Value("b", 0), multiprocessing.Value("b", 0)
    signal.signal(signal.SIGUSR1, lambda *_: setattr(moved, "value", 1))
    group = socket_at(HOST)
    sender = multiprocessing.Process(target=send, args=(old, new, group.getsockname()[1], moved, over, goes_again == "again"))
    sender.start()
    watchers = [Watcher(i, lambda: (new if moved.value else old) + 1) for i in range(SET_TOPS)]
    is_killed = watch(watchers, group, int(server), folder)
    if not is_killed:
        tell_shell(folder)
    over.value = 1
    sender.join()
    with open(f"{folder}/got", "w") as log:
        for it in watchers:
            for ms, data in it.got:
                print(f"{ms:.3f} {it.port} {data.hex()}", file=log)
    return told_of(watchers, is_killed)


def kill(server, folder):
    time.sleep(random.choice((0, random.uniform(0, TICK_MS / 1000))))
    moment = time.monotonic()
    os.kill(server, signal.SIGKILL)
    with open(f"{folder}/killed", "w") as it:
        print(moment, file=it)
    tell_shell(folder)


def tell_shell(folder):
    with open(f"{folder}/go", "w") as it:
        print("go on", file=it)


def drain(it, group, watchers):
    try:
        while True:
            data, ms = it.recv(2048), now_ms()
            for w in watchers:
                if it is group:
                    w.take_multicast(data, ms)
                elif it is w.unicast:
                    w.take_unicast(data, ms)
    except BlockingIOError:
        pass


def told_of(watchers, is_killed):
    if not is_killed:
        print("set-tops: the bursts didn't run")
        return 1
    holes = [len(w.holes()) for w in watchers]
    good = not any(holes) and all(w.joined and w.is_the_source() for w in watchers)
    print(
        f"set-tops: lost {sum(w.lost for w in watchers)}, repaired {sum(w.repaired for w in watchers)}; "
        f"{sum(len(w.packets) for w in watchers)} packets of the source in order, {sum(holes)} missing; bursts ended {[w.ended for w in watchers].count(201)} as stopped"
    )
    return 0 if good else 1


def whole_lines(path):
    with open(path, "rb") as it:
        return it.read().rpartition(b"\n")[0].split(b"\n")


def came_of(sent, got):
    """When each datagram of the book came, where it did, and whether each that came is the book's next to its set-top, but
    for those that were lost."""
    queues, came, is_in_order = {}, {}, True
    for k, (_, port, data) in enumerate(sent):
        queues.setdefault(port, []).append((data, k))
    for ms, port, data in got:
        queue = queues.get(port, [])
        while queue and queue[0][0] != data:
            queue.pop(0)
        if queue:
            came[queue.pop(0)[1]] = ms
        else:
            is_in_order = False
    return came, is_in_order


def read_room(folder):
    """What the book sends (event, port, digits), what the set-tops got (ms, port, digits), and the moment of the kill."""
    with open(f"{folder}/book") as lines:
        sent = [(int(w[0]), int(w[3]) & 0xFFFF, w[4]) for w in map(str.split, lines) if w[2:3] == ["send"]]
    with open(f"{folder}/got") as lines:
        got = [(float(w[0]), int(w[1]), w[2]) for w in map(str.split, lines)]
    with open(f"{folder}/killed") as it:
        return sent, got, 1000 * float(it.read())


def judge(folder):
    old, new = whole_lines(f"{folder}/old"), whole_lines(f"{folder}/new")
    goes_on = new[: len(old)] == old and new[-1] == b"end"
    before = sum(line[:3] in (b"liv", b"fb ", b"tic") for line in old)
    sent, got, killed = read_room(folder)
    came, is_in_order = came_of(sent, got)
    of_old = [k for k, it in enumerate(sent) if it[0] <= before]
    missing = [k for k in range(len(sent)) if k not in came]
    # What the killed server hadn't sent of its last event that sends anything is the end of what it had to send.
    in_flight = missing == of_old[len(of_old) - len(missing) :] and len({sent[k][0] for k in missing}) < 2
    numbers = numbers_go_on(sent)
    print(
        f"judge: the old server's journal has {before} events, the new one's begins with the same lines: {yes(goes_on)}; "
        f"of {len(of_old)} datagrams of the old {len(missing)} were in flight, and {len(sent) - len(of_old)} of the new all came, in order: {yes(in_flight and is_in_order)}; "
        f"retransmission numbers go on: {yes(numbers)}"
    )
    first = min((ms for k, ms in came.items() if sent[k][0] > before), default=None)
    last = max((ms for k, ms in came.items() if sent[k][0] <= before), default=None)
    if first is None or last is None:
        return 1
    print(f"gap: {first - killed:.1f} ms from the kill, {first - last:.1f} ms between two datagrams ({(first - last) / TICK_MS:.1f} ticks)")
    return 0 if goes_on and in_flight and is_in_order and numbers else 1


def yes(it):
    return "yes" if it else "NO"


def numbers_go_on(sent):
    """Whether each set-top's retransmissions have numbers that follow one another (RFC 4588, 4)."""
    newest = {}
    for _, port, data in sent:
        if data[2:4] != "cd":
            number = int(data[4:8], 16)
            if number != (newest.get(port, 499) + 1) & 0xFFFF:
                return False
            newest[port] = number
    return True


def table(path):
    with open(path) as lines:
        gaps = [line.split() for line in lines]
    for what, unit, values in (
        ("from the kill to the first datagram of the new server", "ms", [float(w[1]) for w in gaps]),
        ("between the last datagram of the old and the first of the new", "ms", [float(w[6]) for w in gaps]),
        ("the same in ticks", "ticks", [float(w[6]) / TICK_MS for w in gaps]),
    ):
        print(f"{what}: least {min(values):.1f}, median {statistics.median(values):.1f}, greatest {max(values):.1f} {unit} ({len(values)} rounds)")
    return 0


if __name__ == "__main__":
    command = {"load": load, "judge": judge, "table": table}[sys.argv[1]]
    sys.exit(command(*sys.argv[2:]))
