#!/usr/bin/env python3
"""Many sessions of one film at once: play.py PROGRAM FOLDER FILM COUNT...

FILM has 25 pictures a second. For each count, the built `vodserve` serves that many sessions, each byte is checked, and
one line tells what the server used. With PROGRAM `gst` the server is that of gst_server.py, which
takes the same film in Matroska, FILM with the ending `.mkv`.

How late a slot's bytes came: the plan says which byte of the stream is the last of each slot, and the client knows when
it had that byte. It doesn't see the server's clock; so a session's slots are counted from where the earliest of its
slots would have begun, and each slot's lateness is the time that its last byte came after that. The client's own delay
is in it.
"""

import contextlib
import os
import subprocess
import sys
import time
from pathlib import Path

sys.path.insert(0, str(Path(__file__).resolve().parent.parent))
import serving
from sessions import Sessions, own_seconds

SLOT = 0.04
MARGIN = 60


def plan_of(program, folder, units):
    """The running sums of the film's plan: which byte of the stream is the last of each slot."""
    (folder / "sizes").write_text("\n".join(map(str, units)))
    words = [program, "plan", "trace=sizes"]
    text = subprocess.run(words, cwd=folder, check=True, capture_output=True, text=True).stdout
    sums, total = [], 0
    for line in text.split("\n"):
        if line.startswith("segment"):
            slots, size = map(int, line.split()[1:])
            sums += [total + (j + 1) * size // slots for j in range(slots)]
            total += size
    return sums


def lateness(reads, sums):
    """For each slot, in seconds, how long after its beginning its last byte came, by the session's earliest slot."""
    came, k, before = [], 0, 0
    for slot, due in enumerate(sums):
        while k < len(reads) and reads[k][1] < due:
            k += 1
        if k == len(reads):
            break
        if due > before:
            came.append(reads[k][0] - slot * SLOT)
        before = due
    origin = min(came)
    return [at - origin for at in came]


def share(sorted_values, part):
    return sorted_values[min(int(len(sorted_values) * part), len(sorted_values) - 1)]


class Watch:
    """What the server and the clients use between two moments."""

    def __init__(self, pid):
        self.pid = pid
        self.seen = []
        self.peak = self.threads = 0

    def __call__(self):
        self.seen.append((time.monotonic(), serving.processor_seconds(self.pid), own_seconds()))
        self.peak = serving.status_of(self.pid, "VmHWM")
        self.threads = serving.status_of(self.pid, "Threads")

    def line(self, count):
        (t0, used0, own0), (t1, used1, own1) = self.seen
        sessions = count * (t1 - t0)
        return (
            f"{t1 - t0:.1f} s, server {used1 - used0:.2f} s of processor time, {(used1 - used0) * 1000 / sessions:.2f}"
            f" in 1,000 session-seconds, peak {self.peak:,} KiB, {self.threads} threads; clients {own1 - own0:.2f} s"
        )


def play(pid, port, name, film, count, seconds):
    """Plays so many sessions; the sessions, their faults, and what was used."""
    watch = Watch(pid)
    sessions = Sessions(port, name, film, count)
    try:
        return sessions, sessions.play(seconds, watch), watch
    finally:
        sessions.close()


def tell_late(sessions, sums):
    """How late the slots of all sessions came, in words."""
    late = sorted(at for session in sessions.all if session.fault is None for at in lateness(session.reads, sums))
    over = sum(at > SLOT for at in late)
    ends = set(sums)
    reads = [got for session in sessions.all for _, got in session.reads]
    at_ends = sum(got in ends for got in reads) * 100 // len(reads)
    middle, most = share(late, 0.5), share(late, 0.99)
    return (
        f"  slots late by {middle * 1000:.1f} ms (half), {most * 1000:.1f} ms (99 of 100), {late[-1] * 1000:.1f} ms (most);"
        f" {over} of {len(late)} by more than a slot; {at_ends} of 100 reads ended with a slot of the plan"
    )


def load():
    return f"load {os.getloadavg()[0]:.1f}"


def report(count, faults, watch, of):
    told = f"FAILED: {len(faults)} faults, one: {faults[0]}" if faults else watch.line(count)
    print(f"{of}, {count} sessions: {told}; {load()}", flush=True)
    return bool(faults)


def by_vodserve(program, folder, name, counts):
    film = (folder / name).read_bytes()
    bad, sums = 0, None
    for count in counts:
        words = {"capacity": 10**9, "workers": count, "connections": 1}
        with serving.Server(program, folder, [name], **words) as server:
            sessions, faults, watch = play(server.child.pid, server.port, name, film, count, MARGIN + len(film) / 60000)
            bad += report(count, faults, watch, "vodserve")
            if not faults:
                units = sessions.all[0].units
                sums = sums or plan_of(program, folder, [b - a for a, b in zip([0, *units], units)])
                print(tell_late(sessions, sums), flush=True)
            text, _ = server.finish()
        for fault in serving.Journal(text).faults():
            bad += 1
            print(f"  journal: {fault}")
    return bad


@contextlib.contextmanager
def gst_server(folder, name):
    """A running server of gst-rtsp-server, and its port."""
    port = serving.free_port()
    words = [os.environ.get("GST_PYTHON", "python3"), Path(__file__).with_name("gst_server.py"), str(port), name]
    words.append(Path(name).with_suffix(".mkv"))
    with open(folder / "gst.err", "wb") as err:
        child = subprocess.Popen(words, cwd=folder, stdin=subprocess.DEVNULL, stdout=err, stderr=err)
        try:
            while not serving.is_listening(port):
                if child.poll() is not None:
                    raise serving.NotServed((folder / "gst.err").read_text(errors="replace"))
                time.sleep(0.05)
            yield child.pid, port
        finally:
            child.kill()
            child.wait()


def by_gst(folder, name, counts):
    film = (folder / name).read_bytes()
    bad = 0
    for count in counts:
        with gst_server(folder, name) as (pid, port):
            _, faults, watch = play(pid, port, name, film, count, MARGIN + len(film) / 60000)
            bad += report(count, faults, watch, "gst-rtsp-server")
    return bad


def main():
    program, folder, name, *counts = sys.argv[1:]
    counts = [int(count) for count in counts]
    if program == "gst":
        sys.exit(by_gst(Path(folder), name, counts) > 0)
    sys.exit(by_vodserve(program, Path(folder), name, counts) > 0)


if __name__ == "__main__":
    main()
