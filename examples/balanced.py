#!/usr/bin/env python3
"""The two other sides of servers behind a load balancer on loopback, for examples/balanced.sh: a
sender of one channel and eight set-tops, each with an address of its own (127.0.0.11 to 127.0.0.18).

    balanced.py load FRONT FOLDER SECONDS VICTIM LIVE ..    a sender to all LIVE ports, and set-tops that ask FRONT
    balanced.py judge FOLDER BOOK ..                        which server did what for whom

The set-tops ask one after another. While some are in their bursts `load` kills the process VICTIM, if that
isn't 0. It writes FOLDER/got, a line for each datagram that a set-top got: its place, and the bytes.
"""
import multiprocessing
import os
import select
import signal
import socket
import sys
import time

from loopback import EVERY, HOST
from standby import QUIET_S, Watcher, drain, now_ms, packets_of, socket_at

SET_TOPS, AHEAD_S, KILLED_S = 8, 2.0, 2.85


def send(live, group, seconds):
    """Each packet goes to each server's live port, as multicast does, and to the set-tops."""
    out, began = socket.socket(socket.AF_INET, socket.SOCK_DGRAM), time.monotonic()
    for i, packet in enumerate(packets_of(int(seconds / EVERY))):
        time.sleep(max(0.0, began + i * EVERY - time.monotonic()))
        for port in (*live, group):
            out.sendto(packet, (HOST, port))


def load(front, folder, seconds, victim, *live):
    front, seconds, victim, group = int(front), float(seconds), int(victim), socket_at(HOST)
    work = multiprocessing.Process(target=send, args=([int(it) for it in live], group.getsockname()[1], seconds))
    work.start()
    watchers = [Watcher(i, lambda: front, f"127.0.0.{11 + i}") for i in range(SET_TOPS)]
    began, asked = now_ms(), set()
    while now_ms() < began + 1000 * seconds:
        ms = now_ms()
        if victim and ms > began + 1000 * KILLED_S:
            os.kill(victim, signal.SIGKILL)
            victim = 0
        for i, it in enumerate(watchers):
            if i not in asked and ms > began + 1000 * AHEAD_S + 100 * i:
                asked.add(i)
                it.request()
            if ms < began + 1000 * (seconds - QUIET_S):
                it.ask(ms)
        for it in select.select([group] + [w.unicast for w in watchers], [], [], 0.002)[0]:
            drain(it, group, watchers)
    work.join()
    with open(f"{folder}/got", "w") as log:
        for i, it in enumerate(watchers):
            for _, data in it.got:
                print(i, data.hex(), file=log)
    holes = sum(len(w.holes()) for w in watchers if w.first is not None)
    good = all(w.joined and w.ended == 201 and w.is_the_source() for w in watchers) and holes == 0
    print(
        f"set-tops: lost {sum(w.lost for w in watchers)}, repaired {sum(w.repaired for w in watchers)}; "
        f"{sum(len(w.packets) for w in watchers)} packets of the source in order, {holes} missing; {sum(w.ended == 201 for w in watchers)} bursts ended as stopped; {sum(w.empty for w in watchers)} empty datagrams"
    )
    return 0 if good else 1


def sent_by(book):
    """What a book sends to each client, in order. The clients are the balancer's ports."""
    clients = {}
    with open(book) as lines:
        for words in map(str.split, lines):
            if words[2:3] == ["send"]:
                clients.setdefault(int(words[3]) & 0xFFFF, []).append(words[4])
    return clients


def judge(folder, *books):
    """What a set-top got has to be what one server sends to one client, whole and in order."""
    sent = [sent_by(book) for book in books]
    got = [[] for _ in range(SET_TOPS)]
    with open(f"{folder}/got") as lines:
        for words in map(str.split, lines):
            got[int(words[0])].append(words[1])
    served, left = [0] * len(sent), [(i, port) for i, clients in enumerate(sent) for port in clients]
    for i, mine in enumerate(got):
        by = [(k, port) for k, port in left if sent[k][port] == mine]
        if not by:
            print(f"judge: set-top {i} got {len(mine)} datagrams, which NO server sends to one client")
            continue
        left.remove(by[0])
        served[by[0][0]] += 1
    for i, clients in enumerate(sent):
        print(f"judge: server {i} has {len(clients)} clients, and sent {sum(map(len, clients.values()))} datagrams; {served[i]} set-tops got all of theirs from it alone, in order")
    return 0 if sum(served) == SET_TOPS and not left and all(served) else 1


if __name__ == "__main__":
    command = {"load": load, "judge": judge}[sys.argv[1]]
    sys.exit(command(*sys.argv[2:]))
