#!/usr/bin/env python3
"""Runs the program with each of its allocations refused in turn.

    tools/refused_memory.py [--program PATH] [--port PORT]

A `malloc` that fails at its call k is put in front of the C library's (it is compiled with cc). For each
k the program has to end with status 1 (or 0, where the call would have given memory back), and what it
wrote has to be a beginning of what it writes with ample memory; of `serve`, whose ticks nobody can foretell, the whole lines have to be a trace. A row has
how many allocations were refused. The gate doesn't run this.
"""
import argparse
import os
import socket
import subprocess
import sys
import tempfile
import threading
import time

TOP = os.path.dirname(os.path.dirname(os.path.abspath(__file__)))
EXAMPLES = os.path.join(TOP, "examples")
REFUSE = r"""
#define _GNU_SOURCE
#include <dlfcn.h>
#include <errno.h>
#include <fcntl.h>
#include <stdlib.h>
#include <stdatomic.h>
#include <unistd.h>
static atomic_long calls;
static int refuses(void) {
    static long at = -1;
    if (at < 0) { const char *k = getenv("REFUSE_AT"); at = k ? atol(k) : 0; }
    if (atomic_fetch_add(&calls, 1) + 1 != at) return 0;
    close(creat(getenv("REFUSED"), 0600));
    errno = ENOMEM;
    return 1;
}
void *malloc(size_t size) {
    static void *(*next)(size_t);
    if (!next) next = dlsym(RTLD_NEXT, "malloc");
    return refuses() ? 0 : next(size);
}
void *realloc(void *old, size_t size) {
    static void *(*next)(void *, size_t);
    if (!next) next = dlsym(RTLD_NEXT, "realloc");
    return refuses() ? 0 : next(old, size);
}
int posix_memalign(void **to, size_t align, size_t size) {
    static int (*next)(void **, size_t, size_t);
    if (!next) next = dlsym(RTLD_NEXT, "posix_memalign");
    return refuses() ? ENOMEM : next(to, align, size);
}
void *aligned_alloc(size_t align, size_t size) {
    static void *(*next)(size_t, size_t);
    if (!next) next = dlsym(RTLD_NEXT, "aligned_alloc");
    return refuses() ? 0 : next(align, size);
}
"""
CHANNEL = "channel 7 ssrc 11223344 pt 33 rtx 99 server aabbccdd seq0 500 ring 64 window 2 access marker share 9500 reserve 1500 burst 4000 declared 100 minwire 42 limit 100 idle 2 clients 4"
PACKETS = [f"live 7 80{'a1' if i == 10 else '21'}{i:04x}0000000011223344{'5a' * 40}" for i in (10, 12, 11, 13, 14, 20000, 15)]
REQUEST, NACK = "86cd00030000c0011122334401000000", "81cd00030000c00111223344000b0003"
STOP, LEAVE = "86cd00050000c00111223344030000003d0000040000000e", "81cb00010000c001"
SERVED = [*PACKETS[:5], f"fb 7 5 {REQUEST}", f"fb 7 6 {REQUEST}", f"fb 7 7 {NACK}", f"fb 7 5 {REQUEST}", "tick", f"fb 7 5 {STOP}"]
TRACE = "\n".join(["rams-trace 1 tick 10 link 100000", CHANNEL, *SERVED, *PACKETS[5:], f"fb 7 7 {NACK}", f"fb 7 7 {LEAVE}", "fb 7 8 80", *["tick"] * 4, "end", ""]).encode()
HEAD = "\n".join(["rams-trace 1 tick 10 link 100000", CHANNEL, "end", ""]).encode()
SDP = b"v=0\nm=video 41000 RTP/AVPF 33\na=rtcp-fb:33 nack rai\na=ssrc:287454020\nm=video 42000 RTP/AVPF 99\na=rtpmap:99 rtx/90000\na=fmtp:99 apt=33\n"


def capture():
    """A classic capture file: the packets come to the live port 5000, one each 25 ms."""
    file = bytes.fromhex("d4c3b2a1020004000000000000000000ffff000001000000")
    for i, line in enumerate(PACKETS):
        payload = bytes.fromhex(line.split(" ")[2])
        size = len(payload) + 28
        ip = bytes.fromhex(f"4500{size:04x}00000000401100000a000001ef000001")
        udp = bytes.fromhex(f"13881388{len(payload) + 8:04x}0000")
        frame = bytes.fromhex("01005e0000010200000000010800") + ip + udp + payload
        file += b"".join(n.to_bytes(4, "little") for n in (1, 25_000 * i, len(frame), len(frame))) + frame
    return file


def refused(words, text, at):
    """The status and the text, and whether there was an allocation to refuse."""
    mark = f"{SHIM}.refused"
    env = dict(os.environ, LD_PRELOAD=SHIM, REFUSE_AT=str(at), REFUSED=mark)
    ran = subprocess.run([PROGRAM, *words], input=text, env=env, stdout=subprocess.PIPE, stderr=subprocess.DEVNULL, timeout=60)
    was_there = os.path.exists(mark)
    if was_there:
        os.remove(mark)
    return ran.returncode, ran.stdout, was_there


def each(name, words, text, is_good):
    """Refuses one allocation after another, until none is left to refuse. (Some are only to give memory
    back: the program goes on without them.)"""
    at, wrong, harmless = 0, 0, 0
    while True:
        at += 1
        code, book, was_there = refused(words, text, at)
        if not was_there:
            break
        harmless += code == 0
        if code not in (0, 1) or not is_good(book):
            wrong += 1
            print(f"  {name}, allocation {at}: status {code}, {len(book)} bytes")
    print(f"{name}: {at - 1} allocations refused, {harmless} of no consequence, {wrong} wrong", flush=True)
    return wrong


def feed(done):
    """Sends to the server what a trace has, again and again."""
    lines = [line.split(" ") for line in SERVED if line != "tick"]
    sockets = {line[2]: socket.socket(socket.AF_INET, socket.SOCK_DGRAM) for line in lines}
    while not done.is_set():
        for line in lines:
            port = PORT if line[0] == "live" else PORT + 1
            try:
                sockets[line[2]].sendto(bytes.fromhex(line[-1]), ("127.0.0.1", port))
            except OSError:
                pass  # (nobody listens yet)
        time.sleep(0.004)


def is_journal(text):
    whole = text[: text.rfind(b"\n") + 1]
    if not whole.startswith(HEAD[: HEAD.index(b"end\n")]):
        return not whole
    return subprocess.run([PROGRAM, "run"], input=whole + b"end\n", stdout=subprocess.DEVNULL, timeout=60).returncode == 0


def is_of_threads(text):
    """The text of `threads` begins with a trace of the same lines, and goes on with the book of that."""
    trace, found, book = text.partition(b"rams-book 1\n")
    lines = trace[: trace.rfind(b"\n") + 1].splitlines()
    left = TRACE.splitlines()
    for line in lines:
        if line not in left:
            return False
        left.remove(line)
    ran = subprocess.run([PROGRAM, "run"], input=trace, stdout=subprocess.PIPE).stdout if found else b""
    return not found or (not left and ran.startswith(found + book))


def is_of_pool(text):
    """The text of `pool` is a beginning of the book of its trace, with a ledger of any order."""
    book, found, ledger = text.partition(b"\nclaim ")
    whole = subprocess.run([PROGRAM, "run"], input=TRACE, stdout=subprocess.PIPE).stdout
    return whole.startswith(book) and (not found or whole == book + b"\n")


def main():
    global PROGRAM, PORT, SHIM
    given = argparse.ArgumentParser(description=__doc__, formatter_class=argparse.RawDescriptionHelpFormatter)
    given.add_argument("--program", default=os.path.join(TOP, "crates/rams_program/out/rams_program"))
    given.add_argument("--port", type=int, default=25_000)
    given = given.parse_args()
    PROGRAM, PORT = given.program, given.port
    wrong = 0
    with tempfile.TemporaryDirectory(prefix="rams-memory-") as room:
        SHIM = os.path.join(room, "refuse.so")
        with open(os.path.join(room, "refuse.c"), "w") as it:
            it.write(REFUSE)
        subprocess.run(["cc", "-shared", "-fPIC", "-O1", "-o", SHIM, os.path.join(room, "refuse.c"), "-ldl"], check=True)
        with open(os.path.join(EXAMPLES, "handover.world"), "rb") as it:
            world = it.read()
        cases = (("run", TRACE), ("meet", world), ("make 7 8", b""), ("sdp", HEAD + SDP), ("describe 5000", HEAD), ("pcap 5000", HEAD + capture()))
        for name, text in cases:
            words = name.split(" ")
            whole = subprocess.run([PROGRAM, *words], input=text, stdout=subprocess.PIPE).stdout
            wrong += each(name, words, text, whole.startswith)
        wrong += each("threads 4", ["threads", "4"], TRACE, is_of_threads)
        wrong += each("pool 1500", ["pool", "1500"], TRACE, is_of_pool)
        done = threading.Event()
        sender = threading.Thread(target=feed, args=(done,))
        sender.start()
        wrong += each("serve, 40 turns", ["serve", str(PORT), "40"], HEAD, is_journal)
        done.set()
        sender.join()
    sys.exit(bool(wrong))


if __name__ == "__main__":
    main()
