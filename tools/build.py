#!/usr/bin/env python3
"""Proves the crates of vodserve side by side, and builds the program.

    tools/build.py [--jobs JOBS] [--run [ARGUMENT..]]

Takes JOBS processors, or as many as there are and memory allows. `rt` locks the crates that it
works on, and those below them. So each lane has a copy of the sources, and gets the libraries that
the other lanes built. At the end `rt run` in crates/vodserve takes each library only if it is of
the same sources, and proves the rest. Then the checksums of the program and of its sources are
written beside the program, for tools/sources.sh.

Progress goes to the error stream. The status is 0 if the program was built, or that of the program,
if it is run then with the ARGUMENTs; else 70, after what rt printed of the crate that failed. If
another run builds the program, this one waits for it.
"""

import argparse
import concurrent.futures
import contextlib
import fcntl
import os
import shutil
import signal
import subprocess
import sys
import tempfile
import time

TOP = os.path.dirname(os.path.dirname(os.path.abspath(__file__)))
PROGRAM = "vodserve"
OUT = f"{TOP}/crates/{PROGRAM}/out"
# The memory that a large check takes, in bytes.
MEMORY_OF_A_CHECK = 3_000_000_000
# The processor seconds of a check that wasn't measured.
A_CHECK = 100


def say(text):
    print(f"vodserve: {text}", file=sys.stderr, flush=True)


def duration(seconds):
    return f"{seconds:.0f} s" if seconds < 90 else f"{seconds / 60:.0f} min"


def read_crates():
    """Returns for each crate of crates.txt the crates of the repository below it."""
    with open(f"{TOP}/crates.txt", encoding="utf-8") as file:
        lines = [line.split("#")[0].partition(":") for line in file]
    names = {name.split()[0]: below.split() for name, _, below in lines if name.strip()}
    return {name: [it for it in below if it in names] for name, below in names.items()}


def link_or_copy(source, target):
    """Gives a file a second name, or copies it if its file system has no second names."""
    try:
        os.link(source, target)
    except OSError:
        shutil.copy2(source, target)


def all_below(crates, name):
    return {it for below in crates[name] for it in {below} | all_below(crates, below)}


def read_seconds():
    """Returns the processor seconds of each crate's check that was measured, for the order."""
    with open(f"{TOP}/tools/seconds.txt", encoding="utf-8") as file:
        lines = [line.split("#")[0].split() for line in file]
    return {it[0]: int(it[1]) for it in lines if it}


def jobs_now():
    """Returns how many checks run side by side: one a processor, as many as memory holds."""
    processors = len(os.sched_getaffinity(0))
    with open("/proc/meminfo", encoding="ascii") as file:
        free = [int(it.split()[1]) * 1024 for it in file if it.startswith("MemAvailable")]
    return max(1, min(processors, sum(free) // MEMORY_OF_A_CHECK))


def sum_of_sources():
    """Returns the checksum of the sources."""
    return subprocess.check_output([f"{TOP}/tools/sources.sh", "sum"], text=True).strip()


class Build:
    """The crates below the program, each to be proved once those below it are."""

    def __init__(self, jobs, room):
        crates = read_crates()
        self.below = {it: all_below(crates, it) for it in all_below(crates, PROGRAM)}
        measured = read_seconds()
        self.seconds = {it: measured.get(it, A_CHECK) for it in [*self.below, PROGRAM]}
        self.jobs, self.room, self.done, self.begin = jobs, room, [], time.monotonic()
        self.children = set()
        self.lanes = [f"{room}/{lane}" for lane in range(jobs)]
        for lane in self.lanes:
            no_out = shutil.ignore_patterns("out")
            shutil.copytree(f"{TOP}/crates", f"{lane}/crates", ignore=no_out)
            for file in ("crates.txt", "HANDLES"):
                shutil.copy(f"{TOP}/{file}", lane)

    def rest_of(self, name):
        """Returns the seconds of the longest chain from this crate up: the longest goes first."""
        above = [self.rest_of(it) for it, below in self.below.items() if name in below]
        return self.seconds[name] + max(above, default=0)

    def is_longest(self, name):
        """Whether hardly any crate has a longer chain: then the program waits for this one."""
        longest = max(self.rest_of(it) for it in self.below if it not in self.done)
        return self.rest_of(name) * 5 >= longest * 4

    def call(self, command, top, name):
        """Returns whether a command on a crate succeeded; its output is in the room's log."""
        with open(f"{self.room}/{name}.log", "w", encoding="utf-8") as log:
            child = subprocess.Popen(
                command, cwd=f"{top}/crates/{name}", stdout=log, stderr=log,
                stdin=subprocess.DEVNULL)
        self.children.add(child)
        try:
            return child.wait() == 0
        finally:
            child.terminate()
            self.children.discard(child)

    def stop(self):
        """Ends the commands that still run."""
        for child in [*self.children]:
            child.terminate()

    def prove(self, lane, name, jobs, first):
        """Returns whether a lane's rt proved a crate and built its library.

        The crates that come first have the processors before the others.
        """
        nice = [] if first else ["nice"]
        return self.call([*nice, "rt", "lib", "--jobs", str(jobs)], lane, name)

    def hand_out(self, lane, name):
        """Gives the library that a lane built to the other lanes and to the checkout."""
        for other in [TOP, *self.lanes]:
            if other != lane:
                to = f"{other}/crates/{name}/out"
                shutil.rmtree(f"{to}/rlib", ignore_errors=True)
                os.makedirs(to, exist_ok=True)
                built = f"{lane}/crates/{name}/out/rlib"
                shutil.copytree(built, f"{to}/rlib", copy_function=link_or_copy)

    def report(self, what):
        taken = time.monotonic() - self.begin
        proved = sum(self.seconds[it] for it in self.done)
        left = sum(self.seconds.values()) - proved
        # before an eighth is proved there is too little to go by
        rest = f", about {duration(taken * left / proved)} left" if proved * 7 >= left else ""
        say(f"{duration(taken)}: {what} ({len(self.done)} of {len(self.seconds)} crates{rest})")

    def run(self):
        """Returns the name of a crate that was not proved, or None."""
        left = sorted(self.below, key=self.rest_of, reverse=True)
        # a check of two jobs doesn't always keep two processors busy, so there is one job more
        free, running, lanes = self.jobs + 1, {}, [*self.lanes]
        pool = concurrent.futures.ThreadPoolExecutor(self.jobs)
        with pool, contextlib.ExitStack() as at_end:
            at_end.callback(self.stop)
            while left or running:
                ready = [it for it in left if self.below[it] <= {*self.done}][: len(lanes)]
                for place, name in enumerate(ready):
                    first = self.is_longest(name)
                    share = free // (len(ready) - place)
                    jobs = min(self.jobs, max(share, 2 if first else 1))
                    lane = lanes.pop()
                    left.remove(name)
                    free -= jobs
                    running[pool.submit(self.prove, lane, name, jobs, first)] = name, lane, jobs
                ended, _ = concurrent.futures.wait(
                    running, timeout=60, return_when=concurrent.futures.FIRST_COMPLETED)
                for it in ended:
                    name, lane, jobs = running.pop(it)
                    if not it.result():
                        return name
                    self.hand_out(lane, name)
                    lanes.append(lane)
                    free += jobs
                    self.done.append(name)
                    self.report(f"{name} is proved")
                if not ended:
                    self.report(f"at {', '.join(name for name, _, _ in running.values())}")
        return None


def failures_in(file):
    """Returns the lines of a log that say what failed, and its last line."""
    with open(file, encoding="utf-8", errors="replace") as it:
        lines = [line.rstrip() for line in it]
    failed = [line for line in lines if "error" in line or "not proved" in line]
    return "\n".join(dict.fromkeys(failed[:12] + lines[-1:]))


def build_program(jobs):
    """Returns whether the program was built; prints what failed if it wasn't."""
    with tempfile.TemporaryDirectory(prefix="build-", dir=OUT) as room:
        build = Build(jobs, room)
        say(f"proving {len(build.seconds)} crates, {jobs} at a time, and building the program")
        failed = build.run()
        command = ["rt", "run", "--jobs", str(jobs), "--", "--version"]
        if failed is None and not build.call(command, TOP, PROGRAM):
            failed = PROGRAM
        if failed is None:
            say(f"{duration(time.monotonic() - build.begin)}: all proved, and the program is built")
        else:
            say(f"{failed} could not be proved or built; rt printed:")
            print(failures_in(f"{room}/{failed}.log"), file=sys.stderr)
        return failed is None


def time_of(file):
    """Returns when a file was written, or None if there is none."""
    return os.stat(file).st_mtime_ns if os.path.exists(file) else None


def end(number, _):
    sys.exit(128 + number)


def main():
    for number in (signal.SIGINT, signal.SIGTERM, signal.SIGHUP):
        signal.signal(number, end)
    parser = argparse.ArgumentParser(
        description="Proves the crates of vodserve side by side, and builds the program.")
    parser.add_argument(
        "--jobs", type=int, default=jobs_now(),
        help="the processors to take; default: as many as memory allows")
    parser.add_argument(
        "--run", nargs=argparse.REMAINDER, metavar="ARGUMENT",
        help="run the program then with these arguments")
    given = parser.parse_args()
    program, begin = f"{OUT}/{PROGRAM}", time.time_ns()
    os.makedirs(OUT, exist_ok=True)
    with open(f"{OUT}/build.lock", "w", encoding="utf-8") as lock:
        before = time_of(program)
        try:
            fcntl.flock(lock, fcntl.LOCK_EX | fcntl.LOCK_NB)
        except BlockingIOError:
            say("another run is building the program: waiting for it")
            fcntl.flock(lock, fcntl.LOCK_EX)
        # in the checkout's file system, where a file can have a second name
        if time_of(program) == before:
            sources = sum_of_sources()
            if not build_program(max(1, given.jobs)):
                return 70
            # a source that was changed meanwhile is newer
            os.utime(program, ns=(begin, begin))
            if sum_of_sources() == sources:
                command = [f"{TOP}/tools/sources.sh", "record", program, sources]
                subprocess.run(command, check=False)
    if given.run is None:
        return 0
    os.execv(program, [program, *given.run])


if __name__ == "__main__":
    sys.exit(main())
