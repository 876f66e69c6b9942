#!/usr/bin/env python3
"""Sessions of `serve`, of the bare C server and of gst-rtsp-server in turn: turns.py PROGRAM BARE
FOLDER COUNT ROUNDS [OTHER]

FOLDER has film.mpg with 25 pictures a second, and film.mkv, the same in Matroska. In each round
each server plays the film to COUNT clients, which compare each byte; OTHER is another vodserve. A
server's processor time is that of the process from the first PLAY until all clients have the film;
the kernel's part of sending and receiving on this machine is in it. A wake is a slot of a session.
Prints a line for each server: the median of the rounds, the lowest and the highest, and the
medians' ratio to that of the bare server. Ends with status 1 if a session had a fault.
"""

import contextlib
import os
import statistics
import subprocess
import sys
import time
from pathlib import Path

sys.dont_write_bytecode = True
BENCH = Path(__file__).resolve().parent.parent
sys.path[:0] = [str(BENCH), str(BENCH / "transcript"), str(BENCH / "load")]

import play
import serving
from days import curves, plan
from films import Film, Run

NAME = "film.mpg"
# Slots of 40 ms, a buffer of 1 MiB and a start delay of a second, as `serve` has them by default.
SLOT, BUFFER, DELAY = 14_400, 1_048_576, 25


@contextlib.contextmanager
def by_vodserve(program, folder, count):
    words = {"capacity": 10 ** 9, "workers": count}
    with serving.Server(program, folder, [NAME], **words) as server:
        yield server.child.pid, server.port


@contextlib.contextmanager
def by_bare(bare, folder):
    port = serving.free_port()
    child = subprocess.Popen([bare, str(port), "wire", "slots"], cwd=folder)
    try:
        while not serving.is_listening(port):
            if child.poll() is not None:
                raise serving.NotServed(f"the bare server ended with {child.returncode}")
            time.sleep(0.01)
        yield child.pid, port
    finally:
        child.kill()
        child.wait()


def write_play(folder):
    """The bytes of a play of the film, and how many of them go out in each slot; their number."""
    film = Film(NAME, (folder / NAME).read_bytes())
    slots = plan(0, *curves(film.sizes, film.time, SLOT, BUFFER, DELAY, 0, 0))
    run = Run(film, 0, len(film.units), (0, 1), (0, 0, 1, 0, 0), 0, 0, 0)
    (folder / "wire").write_bytes(run.bytes)
    (folder / "slots").write_text("".join(f"{size}\n" for size in slots))
    return len(slots)


def seconds_of(server, folder, count):
    """The processor seconds of one round, its peak memory in KiB and its faults."""
    film = (folder / NAME).read_bytes()
    with server as (pid, port):
        _, faults, watch = play.play(pid, port, NAME, film, count, play.MARGIN + 60)
    (_, before, _), (_, after, _) = watch.seen
    return after - before, watch.peak, faults


def row(name, seconds, peaks, wakes, length, bare):
    per_wake = [value * 1e6 / wakes for value in seconds]
    middle = statistics.median(per_wake)
    return (
        f"{name}: {middle:.1f} us a wake ({min(per_wake):.1f} to {max(per_wake):.1f}),"
        f" {statistics.median(seconds) * 1000 / length:.2f} s in 1,000 session-seconds,"
        f" {max(peaks):,} KiB at most, {middle / bare:.2f} of the bare server")


def main():
    program, bare, folder, count, rounds, *others = sys.argv[1:]
    folder, count = Path(folder), int(count)
    slots = write_play(folder)
    servers = {
        "vodserve": lambda: by_vodserve(program, folder, count),
        "bare C server": lambda: by_bare(bare, folder)}
    for other in others:
        servers["the other vodserve"] = lambda: by_vodserve(other, folder, count)
    if os.environ.get("GST_PYTHON"):
        servers["gst-rtsp-server"] = lambda: play.gst_server(folder, NAME)
    seconds, peaks = ({name: [] for name in servers} for _ in range(2))
    for number in range(int(rounds)):
        for name, server in servers.items():
            used, peak, faults = seconds_of(server(), folder, count)
            seconds[name].append(used)
            peaks[name].append(peak)
            print(f"round {number + 1}, {name}: {used:.2f} s; {play.load()}", flush=True)
            if faults:
                print(f"FAILED: {name}: {len(faults)} faults, one: {faults[0]}")
                return 1
    bare_wake = statistics.median(seconds["bare C server"]) * 1e6 / (slots * count)
    for name in servers:
        print(row(name, seconds[name], peaks[name], slots * count, slots * count * 0.04, bare_wake))
    return 0


if __name__ == "__main__":
    sys.exit(main())
