#!/usr/bin/env python3
"""Large and hostile captures and session descriptions: how they end, in what time and memory.

    tools/capture_limits.py [--program PATH] [--gigabytes N]

A capture of more than a gigabyte (1.1) is made by a small generator, goes through `pcap`, and is deleted.
Then come zeros, records that are too long, moments that are far apart, and endless lines. Each has to end
with its status and its word, within a minute of processor time, and with 16 MB of memory, since it is
allowed no more (prlimit). A row has the seconds, and the most memory that was seen. The status is 1 where
something is wrong. The gate doesn't run this.
"""
import argparse
import itertools
import os
import re
import struct
import subprocess
import sys
import tempfile
import threading
import time

TOP = os.path.dirname(os.path.dirname(os.path.abspath(__file__)))
HEAD = (
    b"rams-trace 1 tick 10 link 1000000\n"
    b"channel 7 ssrc 11223344 pt 33 rtx 99 server aabbccdd seq0 500 ring 2048 window 8 access ts share 100000 reserve "
    b"30000 burst 20000 declared 13580 minwire 1358 limit 500 idle 3000 clients 100\nend\n"
)
FILE = struct.pack("<IHHIIII", 0xA1B2C3D4, 2, 4, 0, 0, 262144, 1)
MOST_SECONDS, MOST_BYTES = 60, 16 << 20
SDP = b"v=0\nm=video 5000 RTP/AVPF 33\na=rtcp-fb:33 nack rai\na=ssrc:287454020\nm=video 5002 RTP/AVPF 99\na=rtpmap:99 rtx/90000\na=fmtp:99 apt=33\n"

wrong = []


def record(seconds, microseconds, frame, length=None):
    size = len(frame) if length is None else length
    return struct.pack("<IIII", seconds, microseconds, size, size) + frame


def frame(port, payload):
    """An Ethernet frame of a datagram to a port."""
    udp = struct.pack(">HHHH", 4000, port, 8 + len(payload), 0) + payload
    ip = struct.pack(">BBHHHBBHII", 0x45, 0, 20 + len(udp), 0, 0, 64, 17, 0, 0x0A000001, 0xEF000001)
    return bytes(12) + b"\x08\x00" + ip + udp


def packets(count, port):
    """The records of so many packets, 2,000 a second, in pieces of 1,000."""
    front, payload = frame(port, bytes(1328))[:42], bytes(1316)
    for first in range(0, count, 1000):
        piece = []
        for i in range(first, min(first + 1000, count)):
            rtp = struct.pack(">BBHII", 0x80, 33, i & 0xFFFF, i * 45 & 0xFFFFFFFF, 0x11223344) + payload
            piece.append(record(i // 2000, i % 2000 * 500, front + rtp))
        yield b"".join(piece)


def zeros(count):
    piece = bytes(1 << 20)
    for _ in range(count >> 20):
        yield piece


def again(line, count):
    """A line so many times, in pieces of at most a megabyte."""
    each = max((1 << 20) // len(line), 1)
    piece = line * min(each, count)
    for _ in range(count // each):
        yield piece
    yield line * (count % each)


def behind(first, pieces):
    return itertools.chain((first,), pieces)


def feed(out, pieces):
    """Gives the program its input; it may end before that."""
    try:
        for piece in pieces:
            out.write(piece)
        out.close()
    except BrokenPipeError:
        pass


class Found:
    """What a program wrote: how many live packets, and the last line."""

    def __init__(self):
        self.live, self.tail = 0, b""

    def read(self, source):
        while piece := source.read(1 << 20):
            self.live += (self.tail[-6:] + piece).count(b"live 7 ")
            self.tail = (self.tail + piece)[-200:]

    def last(self):
        return self.tail.rstrip(b"\n").rpartition(b"\n")[2].decode(errors="replace")


class Memory(threading.Thread):
    """Looks at the most memory that a process has had, until it ends."""

    def __init__(self, pid):
        super().__init__()
        self.pid, self.most = pid, 0

    def run(self):
        while True:
            with open(f"/proc/{self.pid}/status") as status:
                found = re.search(r"VmHWM:\s+(\d+)", status.read())
            if not found:
                return
            self.most = int(found[1])
            time.sleep(0.001)


def measured(program, command, source):
    """Status, what was written, what was said, processor seconds and the most memory in KB. `source` is
    a file or pieces of bytes."""
    is_file = hasattr(source, "fileno")
    limited = ["prlimit", f"--data={MOST_BYTES}", f"--cpu={MOST_SECONDS}", program, *command]
    process = subprocess.Popen(limited, stdin=source if is_file else subprocess.PIPE, stdout=subprocess.PIPE, stderr=subprocess.PIPE)
    found, said, memory = Found(), [], Memory(process.pid)
    threads = [threading.Thread(target=found.read, args=(process.stdout,)), threading.Thread(target=lambda: said.append(process.stderr.read())), memory]
    if not is_file:
        threads.append(threading.Thread(target=feed, args=(process.stdin, source), daemon=True))
    for it in threads:
        it.start()
    for it in threads[:3]:
        it.join()
    _, status, used = os.wait4(process.pid, 0)
    process.returncode = os.waitstatus_to_exitcode(status)
    return process.returncode, found, said[0].decode().strip(), used.ru_utime + used.ru_stime, memory.most


def row(program, name, command, source, status, last, live=None):
    ended, found, said, seconds, memory = measured(program, command, source)
    good = ended == status and found.last() == last and live in (None, found.live)
    if not good:
        wrong.append(name)
    print(f"{name:46} status {ended:2}  {found.last()[:40]:24} {seconds:6.2f} s {memory / 1024:5.1f} MB{'' if good else '   WRONG'}", flush=True)
    if said:
        print(f"    {said}")


def large(program, gigabytes):
    """A capture of so many GB, from a file, beside a small one."""
    count = int(gigabytes * 1e9) // (16 + 42 + 1328)
    for count, port, live in ((1000, 5000, 1000), (count, 5000, count), (count, 6000, 0)):
        with tempfile.TemporaryFile() as file:
            file.write(HEAD + FILE)
            file.writelines(packets(count, port))
            size = file.tell()
            file.seek(0)
            name = f"{size:,} bytes, {'of the channel' if live else 'of another port'}"
            row(program, name, ["pcap", "5000"], file, 0, "end", live)


def hostile_captures(program):
    pcap = ["pcap", "5000"]
    giga = 1 << 30
    rows = [
        ("a gigabyte of zeros, and no head", zeros(giga), 5, "refused 1 form"),
        ("a gigabyte of zeros behind the head", behind(HEAD, zeros(giga)), 9, "refused-capture 0 magic"),
        ("a gigabyte of zeros behind the file's head", behind(HEAD + FILE, zeros(giga)), 7, "too-long"),
        ("a head, and no file", (HEAD,), 9, "refused-capture 0 short"),
        ("half a file's head", (HEAD, FILE[:12]), 9, "refused-capture 0 short"),
        ("a record of 4,294,967,295 bytes", behind(HEAD + FILE + record(1, 0, b"", 0xFFFFFFFF), zeros(giga)), 9, "refused-capture 1 long"),
        ("a record of 262,145 bytes", (HEAD, FILE, record(1, 0, bytes(262145))), 9, "refused-capture 1 long"),
        ("1,000 records of 262,144 bytes", behind(HEAD + FILE, again(record(1, 0, bytes(262144)), 1000)), 0, "end"),
        ("a record of 262,144 bytes that is cut", (HEAD, FILE, record(1, 0, bytes(262143), 262144)), 9, "refused-capture 1 cut"),
        ("two records 136 years apart", (HEAD, FILE, record(0, 0, b""), record(0xFFFFFFFF, 0xFFFFFFFF, b"")), 7, "too-long"),
        ("moments forth and back, 1,000,000 times", behind(HEAD + FILE, again(record(9000, 0, b"") + record(0, 0, b""), 500_000)), 0, "end"),
        ("an IP header of 60 bytes in a frame of 34", (HEAD, FILE, record(1, 0, bytes(12) + b"\x08\x00\x4f" + bytes(19))), 0, "end"),
    ]
    for name, source, status, last in rows:
        row(program, name, pcap, source, status, last)


def hostile_descriptions(program):
    sdp, giga = ["sdp"], 1 << 30
    rows = [
        ("a description, whole", (HEAD, SDP), 0, "end"),
        ("a description of 10,007 lines", behind(HEAD + SDP, again(b"a=x\n", 10_000)), 10, "refused-sdp long"),
        ("one of a gigabyte of lines", behind(HEAD + SDP, again(b"a=x\r\n", giga // 5)), 10, "refused-sdp long"),
        ("one of 1,000 lines of 4,096 bytes", behind(HEAD + SDP, again(b"a=" + b"x" * 4094 + b"\n", 993)), 0, "end"),
        ("one with a line of 4,097 bytes", (HEAD, SDP, b"a=" + b"x" * 4095 + b"\n"), 10, "refused-sdp form 8"),
        ("one with a line of 10 MB", (HEAD, SDP, b"a=" + b"x" * 10_000_000 + b"\n"), 10, "refused-sdp form 8"),
        ("one of a gigabyte of zeros", behind(HEAD, zeros(giga)), 10, "refused-sdp form 1"),
        ("one without a line", (HEAD,), 10, "refused-sdp version"),
        ("sdp: a head of a gigabyte of zeros", zeros(giga), 5, "refused 1 form"),
    ]
    for name, source, status, last in rows:
        row(program, name, sdp, source, status, last)
    row(program, "describe: a head of a gigabyte of zeros", ["describe", "5000"], zeros(giga), 5, "refused 1 form")


def main():
    words = argparse.ArgumentParser()
    words.add_argument("--program", default=f"{TOP}/rams-replay")
    words.add_argument("--gigabytes", type=float, default=1.1)
    given = words.parse_args()
    began = time.time()
    # (it is built first, where it isn't there)
    subprocess.run([given.program, "make", "1", "1"], stdout=subprocess.DEVNULL, check=True)
    large(given.program, given.gigabytes)
    hostile_captures(given.program)
    hostile_descriptions(given.program)
    print(f"{time.time() - began:.0f} s; {f'{len(wrong)} wrong' if wrong else 'all as it has to be'}")
    sys.exit(1 if wrong else 0)


main()
