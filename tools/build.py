#!/usr/bin/env python3
"""Builds rams-replay: the crates below the program in the order of their layers, side by side where
processors are free, and nothing that is there. The script rams-replay calls it with the program's
folder and the kit's bin."""
import os
import signal
import subprocess
import sys
import time
from concurrent.futures import FIRST_COMPLETED, ThreadPoolExecutor, wait
from functools import cache

FOLDER, KIT, *PLAIN = sys.argv[1:]
LOG = "out/build.log"
TRACE = f"{FOLDER}/../../examples/catches_up.trace"
PARENT = os.getppid()

# What a kit of another release may answer where its module rtlib has other names.
OTHER_KIT = (AttributeError, ImportError, TypeError)


class Line:
    """The line that tells how far the build is: written over or, where standard error is no
    terminal, one below another."""

    def __init__(self):
        self.began = time.time()
        self.is_terminal = os.isatty(2)

    def tell(self, done, count, what, more="", end=""):
        minutes, seconds = divmod(int(time.time() - self.began), 60)
        spent = f"{minutes} min {seconds} s" if minutes else f"{seconds} s"
        text = f"[{done}/{count}] {what}, {spent}{more}"
        if self.is_terminal:
            text = f"\r\033[K{text[: os.get_terminal_size(2).columns - 1]}"
        print(text, end=end if self.is_terminal else "\n", file=sys.stderr, flush=True)

    def fail(self, name, log, why=""):
        with open(log, errors="replace") as it:
            last = it.read().rstrip().split("\n")[-20:]
        first = "\n" * self.is_terminal + f"rams-replay: {name} could not be built:"
        print(first, *last, *filter(None, [why]), f"rams-replay: the log is {log}", sep="\n", file=sys.stderr, flush=True)
        os._exit(1)


def run_program(log):
    """Builds the program over the libraries that are there, and runs it on a trace."""
    with open(TRACE) as trace:
        how = {"stdin": trace, "stdout": subprocess.DEVNULL, "stderr": log}
        return subprocess.run(["rt", "run", "--", "run"], cwd=FOLDER, **how).returncode


class Build:
    """The crates below the program, and which of them are built. Two runs of `rt lib` never work at
    one time, since each keeps others out of all crates below its own. So this keeps others out of
    all crates once, and then does what `rt lib` does, side by side, by the kit's module rtlib."""

    def __init__(self, rtlib, line):
        rtlib.guarded()
        # (The kit reckons a crate's sum anew for each way that leads down to it, of which there are
        # thousands. What is edited meanwhile is seen by the next run.)
        for name in ("stamp", "below"):
            setattr(rtlib.Crate, name, cache(getattr(rtlib.Crate, name)))
        self.rtlib, self.line = rtlib, line
        *_, self.program = self.crates = rtlib.crates_below(FOLDER)
        self.held = rtlib.lock(self.crates)
        # A job for each processor, where memory has 4 GB for each.
        free = rtlib.number_in("/proc/meminfo", r"MemAvailable:\s+(\d+)")
        self.lanes = max(min(len(os.sched_getaffinity(0)), free // 4_000_000), 1)
        self.ages = {}
        self.left = [it for it in self.crates if it == self.program or self.is_old(it)]
        # (a crate's time goes by its lines of Rattle, and some goes by at first)
        self.lines = {it: 100 + it.count(rb"\n") for it in self.left}
        self.above = self.chains(self.lines.get)
        self.pool = ThreadPoolExecutor(self.lanes)
        self.since, self.took, self.running = {}, {}, {}

    def is_old(self, crate):
        """Whether a text of the crate, or of one below it, is newer than its library."""
        if crate not in self.ages:
            stamp = f"{crate.folder}/out/rlib/stamp"
            made = os.path.getmtime(stamp) if os.path.isfile(stamp) else 0
            is_newer = any(os.path.getmtime(it) > made for it in self.rtlib.files_of(crate.folder))
            self.ages[crate] = is_newer or any(map(self.is_old, crate.deps))
        return self.ages[crate]

    def chains(self, own):
        """What each crate and the longest chain of crates above it come to."""
        found = {}
        for it in reversed(self.left):
            found[it] = own(it) + max((found[up] for up in found if it in up.deps), default=0)
        return found

    def minutes_left(self):
        """The time of all that is left on all lanes or, if that is more, of its longest chain. The
        pace is that of the crates so far, and at first 100 seconds for 1,000 lines."""
        pace = (100 + sum(self.took.values())) / (1000 + sum(self.lines[it] for it in self.took))

        def own(it):
            spent = time.time() - self.since[it] if it in self.since else 0
            return 0 if it in self.took else max(pace * self.lines[it] - spent, 0)

        on_all = sum(map(own, self.left)) / self.lanes
        return max(round(max(on_all, *self.chains(own).values()) / 60), 1)

    def work(self, crate, jobs):
        """Builds a crate, with what rt says in its log, and returns rt's status."""
        os.makedirs(f"{crate.folder}/out", exist_ok=True)
        with open(f"{crate.folder}/{LOG}", "w") as crate.out:
            flags = ["--jobs", str(jobs)]
            if crate != self.program:
                return crate.build_rlib(flags, anew=False)
            # (rt compares status and text with those of the crate's stored run)
            with open(f"{crate.folder}/stdin", "rb") as stored:
                return crate.run(flags, ["run"], stdin=stored, stdout=subprocess.PIPE)

    def start(self):
        """Starts crates that wait for no other on idle lanes, first whatever has most above it."""
        ready = [it for it in self.left if it not in self.since and all(self.is_done(low) for low in it.deps)]
        ready.sort(key=self.above.get, reverse=True)
        for at, crate in enumerate(ready):
            idle = self.lanes - sum(jobs for _, jobs in self.running.values())
            if idle > 0:
                # The first gets the lanes that no other waits for. (More than four gain nothing.)
                jobs = max(min(idle - len(ready) + at + 1, 4), 1)
                self.since[crate] = time.time()
                self.running[self.pool.submit(self.work, crate, jobs)] = crate, jobs

    def is_done(self, crate):
        return crate in self.took or crate not in self.left

    def tell(self):
        names = [it.name for it, _ in self.running.values()]
        more = f" +{len(names) - 2}" if len(names) > 2 else ""
        done = len(self.crates) - len(self.left) + len(self.took)
        rest = f", about {self.minutes_left()} min left"
        self.line.tell(done, len(self.crates), ", ".join(names[:2]) + more, rest)

    def go(self):
        told = -1
        while len(self.took) < len(self.left):
            self.start()
            if self.line.is_terminal or told < len(self.took):
                told = len(self.took)
                self.tell()
            for it in wait(self.running, 1, FIRST_COMPLETED).done:
                crate, _ = self.running.pop(it)
                if it.result():
                    self.line.fail(crate.name, f"{crate.folder}/{LOG}")
                self.took[crate] = time.time() - self.since[crate]
            if os.getppid() != PARENT:
                os._exit(1)
        self.line.tell(len(self.crates), len(self.crates), "built", end="\n")


def build_by_rt(line):
    """Builds all by `rt run` alone, crate after crate."""
    line.tell(0, 1, "building all crates, which takes longer than half an hour")
    os.makedirs(f"{FOLDER}/out", exist_ok=True)
    with open(f"{FOLDER}/{LOG}", "w") as log:
        status = run_program(log)
    if status:
        line.fail("rams_program", f"{FOLDER}/{LOG}")
    line.tell(1, 1, "built", end="\n")


def main():
    # What rt starts ends when this does, however that is, so Ctrl-C may end this at once.
    if signal.getsignal(signal.SIGINT) is signal.default_int_handler:
        signal.signal(signal.SIGINT, signal.SIG_DFL)
    line = Line()
    if PLAIN:
        build_by_rt(line)
    else:
        sys.path.insert(0, KIT)
        try:
            import rtlib

            Build(rtlib, line).go()
        except OTHER_KIT:
            # (a new process, so that it keeps nobody out)
            os.execv(sys.executable, [sys.executable, "-IB", __file__, FOLDER, KIT, "plain"])
    # (what was edited meanwhile is newer)
    os.utime(f"{FOLDER}/out/rams_program", (line.began, line.began))


main()
