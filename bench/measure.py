#!/usr/bin/env python3
"""Runs commands in turn, several rounds, and prints the best times of each.

    measure.py ROUNDS NAME COMMAND [NAME COMMAND]...

Each command is one argument, split into words as a shell would; its output goes to NAME.out in the folder that this
runs in, what it says on its error stream to NAME.err. A command has to end with status 0; one whose NAME ends in
`-refused` with status 3. Else all ends with status 1.

One line a command is printed: NAME, the best time by the clock and the best processor time in seconds, and the peak
memory in KiB as GNU time tells it (`-` where that isn't installed).
"""

import os
import shlex
import subprocess
import sys
import time

GNU_TIME = "/usr/bin/time"


def run(name, words):
    """One run: seconds by the clock, and seconds of processor time."""
    with open(name + ".out", "wb") as out, open(name + ".err", "wb") as err:
        before = time.perf_counter()
        child = subprocess.Popen(words, stdin=subprocess.DEVNULL, stdout=out, stderr=err)
        _, status, usage = os.wait4(child.pid, 0)
        clock = time.perf_counter() - before
    child.returncode = os.waitstatus_to_exitcode(status)
    if child.returncode != (3 if name.endswith("-refused") else 0):
        with open(name + ".err", "rb") as err:
            said = err.read().decode(errors="replace").strip()
        sys.exit(f"measure.py: status {child.returncode} of {shlex.join(words)}: {said}")
    return clock, usage.ru_utime + usage.ru_stime


def peak(words):
    """The peak memory in KiB of one more run. (What wait4 tells of a child counts this program's own memory too.)"""
    if not os.access(GNU_TIME, os.X_OK):
        return "-"
    told = subprocess.run(
        [GNU_TIME, "-f", "%M", *words], stdin=subprocess.DEVNULL, stdout=subprocess.DEVNULL, stderr=subprocess.PIPE
    )
    return told.stderr.split()[-1].decode()


def main():
    rounds = int(sys.argv[1])
    names = sys.argv[2::2]
    commands = [shlex.split(command) for command in sys.argv[3::2]]
    times = {name: [] for name in names}
    for _ in range(rounds):
        for name, words in zip(names, commands):
            times[name].append(run(name, words))
    for name, words in zip(names, commands):
        clock = min(clock for clock, _ in times[name])
        processor = min(processor for _, processor in times[name])
        print(f"{name} {clock:.4f} {processor:.4f} {peak(words)}")


main()
