#!/usr/bin/env python3
"""Measures rams-replay, and prints the table of docs/ARCHITECTURE.md.

    bench/table.py [NAME ..] [--program PATH] [--runs N]

Each kind of work is a trace made from a fixed seed, once of size n and once of 2n. A row has the lines
in and out, the least processor time of N runs (3), the most memory, and how the time grew from n to 2n.
Traces stand in a folder of their own while they are used, and output goes to /dev/null.
"""
import argparse
import os
import random
import subprocess
import sys
import tempfile

TOP = os.path.dirname(os.path.dirname(os.path.abspath(__file__)))
SEED = 20261128
CHANNEL = (
    "channel {id} ssrc 11223344 pt 33 rtx 99 server aabbccdd seq0 500 ring {ring} window {window} access marker share {share} "
    "reserve {reserve} burst {burst} declared {declared} minwire {minwire} limit {limit} idle {idle} clients {clients}\n"
)
USUAL = dict(id=7, window=4, reserve=30_000, limit=200, idle=1_000_000, clients=1024)


def head(link, channels):
    yield f"rams-trace 1 tick 10 link {link}\n"
    for given in channels:
        yield CHANNEL.format(**{**USUAL, **given})


def live(i, size, marker=False, timestamp=None, id=7):
    """Packet i, of `size` bytes (RFC 3550, 5.1)."""
    at = i * 225 if timestamp is None else timestamp
    return f"live {id} 80{'a1' if marker else '21'}{i & 0xFFFF:04x}{at & 0xFFFFFFFF:08x}11223344{'5a' * (size - 12)}\n"


def request(client, min_ms=None, id=7):
    """A RAMS-R (RFC 6285, 7.2), for a burst of at least so many ms."""
    if min_ms is None:
        return f"fb {id} {client} 86cd00030000c0011122334401000000\n"
    return f"fb {id} {client} 86cd00050000c001112233440100000002000004{min_ms:08x}\n"


def termination(client, number=None):
    """A RAMS-T (RFC 6285, 7.4) that names a packet, or none: then the burst ends at once."""
    if number is None:
        return f"fb 7 {client} 86cd00030000c0011122334403000000\n"
    return f"fb 7 {client} 86cd00050000c00111223344030000003d000004{number:08x}\n"


def nack(client, number, mask=0, id=7):
    """A generic NACK of one word (RFC 4585, 6.2.1)."""
    return f"fb {id} {client} 81cd00030000c00111223344{number & 0xFFFF:04x}{mask:04x}\n"


def video(n):
    """One channel at 8 packets a tick; bursts, stops and repairs of 50 clients. n is the number of packets."""
    dice = random.Random(SEED)
    yield from head(1_000_000, [dict(ring=4096, share=900_000, burst=30_000, declared=12_222, minwire=1358, clients=64)])
    for i in range(n):
        client = i // 400 % 50
        yield live(i, 1328, i % 400 == 0)
        if i % 400 == 60:
            yield request(client)
        if i % 400 == 300:
            yield termination(client, 65536 + i - 20)
        if i % 25 == 24:
            yield nack(dice.randrange(50), i - dice.randrange(1, 300), dice.getrandbits(2))
        if i % 8 == 7:
            yield "tick\n"
    yield "end\n"


def prime_time(n):
    """64 channels with 1,024 clients each, which ask for more than the budgets send. n is the number of ticks."""
    dice = random.Random(SEED)
    given = dict(ring=1024, share=100_000, reserve=90_000, burst=10_000, declared=4_000, minwire=1142)
    yield from head(6_400_000, [dict(given, id=id) for id in range(1, 65)])
    for i in range(1000):
        for id in range(1, 65):
            yield live(i, 1112, i % 50 == 0, id=id)
    for id in range(1, 65):
        for client in range(1024):
            yield nack(client, dice.randrange(20, 1000), dice.getrandbits(2), id)
    yield "tick\n"
    for t in range(n):
        for id in range(1, 65):
            for _ in range(20):
                yield nack(dice.randrange(1024), dice.randrange(t + 30, t + 990), 0x1111, id)
            yield live(1000 + t, 1112, t % 50 == 0, id=id)
        yield "tick\n"
    yield "end\n"


def requests(n, jumping=False):
    """A ring whose every other packet is an access point, and requests of random ages, half of them for one that
    none has, each with its stop. n is the number of requests."""
    dice = random.Random(SEED)
    yield from head(10**9, [dict(ring=32_768, share=10**9, burst=200_000, declared=1_000, minwire=242)])
    for i in range(32_768):
        timestamp = i * 450 + (dice.randrange(2_000_000) if jumping else 0)
        yield live(i, 212, i % 2 == 0, timestamp)
    oldest = 32_768 * 450 // 90
    for i in range(n):
        yield request(i % 1000, dice.randrange(2 * oldest))
        yield termination(i % 1000)
    yield "tick\n"
    yield "end\n"


def jumping(n):
    """The same with timestamps that jump about by up to 22 s."""
    yield from requests(n, jumping=True)


def generated(n):
    """`make`: n blocks of ten packets and a tick."""
    return ["make", "7", str(n)]


WORK = {"video": (video, 50_000), "prime_time": (prime_time, 100), "requests": (requests, 10_000), "jumping": (jumping, 1_000), "make": (generated, 25_000)}


def most_memory(pid):
    """The most memory that a running process held so far, in MB, or 0 where it has ended. (What wait4 tells starts
    from this script's own.)"""
    with open(f"/proc/{pid}/status") as status:
        return next((int(line.split()[1]) / 1000 for line in status if line.startswith("VmHWM:")), 0)


def counted(words, trace, program):
    """The lines out, and the most memory, in MB, looked at with each piece of the output."""
    lines, memory = 0, 0
    with subprocess.Popen([program, *words], stdin=trace, stdout=subprocess.PIPE) as it:
        for piece in iter(lambda: it.stdout.read(1 << 16), b""):
            lines, memory = lines + piece.count(b"\n"), max(memory, most_memory(it.pid))
    return lines, memory


def measured(words, path, program, runs):
    """The lines out, the least processor time of the runs, in s, and the most memory, in MB."""
    least = None
    for _ in range(runs):
        with open(path, "rb") as trace:
            it = subprocess.Popen([program, *words], stdin=trace, stdout=subprocess.DEVNULL)
            _, status, used = os.wait4(it.pid, 0)
            it.returncode = os.waitstatus_to_exitcode(status)
        if it.returncode:
            sys.exit(f"{words[0]} ended with status {it.returncode}")
        spent = used.ru_utime + used.ru_stime
        least = min(least or spent, spent)
    with open(path, "rb") as trace:
        lines, memory = counted(words, trace, program)
    return lines, least, memory


def row(name, size, program, runs):
    work, _ = WORK[name]
    with tempfile.NamedTemporaryFile("w", suffix=".trace") as trace:
        words, lines = ["run"], 0
        if work is generated:
            words = work(size)
        else:
            for line in work(size):
                trace.write(line)
                lines += 1
            trace.flush()
        out, seconds, memory = measured(words, trace.name, program, runs)
        return lines, os.path.getsize(trace.name) / 1e6, out, seconds, memory


def machine():
    with open("/proc/cpuinfo") as it:
        models = [line.split(":")[1].strip() for line in it if line.startswith("model name")]
    return f"{len(models)} processors, {models[0] if models else 'unknown'}"


def main():
    asks = argparse.ArgumentParser(description="Measures rams-replay.")
    asks.add_argument("names", nargs="*", metavar="NAME", help=", ".join(WORK))
    asks.add_argument("--program", default=f"{TOP}/rams-replay")
    asks.add_argument("--runs", type=int, default=3)
    given = asks.parse_args()
    subprocess.run([given.program, "make", "1", "1"], stdout=subprocess.DEVNULL, check=True)  # (builds it)
    print(f"{machine()}\n\n| Work | Lines in, out | MB in | Processor time | Most memory | From n to 2n |\n|---|---|---|---|---|---|")
    for name in given.names or WORK:
        work, size = WORK[name]
        _, _, _, once, _ = row(name, size, given.program, given.runs)
        lines, megabytes, out, twice, memory = row(name, 2 * size, given.program, given.runs)
        held = f"{memory:.0f} MB" if memory else "not seen"
        print(f"| {name}, {2 * size:,} | {lines:,}, {out:,} | {megabytes:.0f} | {twice:.2f} s | {held} | {twice / once:.2f} |", flush=True)


main()
