#!/usr/bin/env python3
"""Watches a film at several buffers, start delays and slots at once: play.py PROGRAM FOLDER FILM

A server runs for each length of slot. Beside the meter of each `watch` stands what the film's plan has for it: the most
that waits in the client's buffer at the begin of a slot, by the certificate that `plan` prints and the sizes of the film's units
on the wire, which are cut here anew (../sizes.py). Prints one line for each; ends with status 1 where a copy isn't the film or
a play has not its one halt. The counts of slots over and under are only printed: the server's slots and the client's begin at
any time of each other, and bytes wait in sockets.
"""

import contextlib
import re
import subprocess
import sys
import threading
from itertools import accumulate
from pathlib import Path

sys.path.insert(0, str(Path(__file__).resolve().parent.parent))
import serving
import sizes

SLOTS = {14400: "40 ms", 3600: "10 ms"}
CLIENTS = [(65536, 0), (65536, 25), (65536, 250), (262144, 25), (1048576, 0), (1048576, 25), (1048576, 250), (4194304, 1000)]
LINE = re.compile(r"watched units=(\d+) bytes=(\d+) frames=(\d+) reports=(\d+) most=(\d+) over=(\d+) under=(\d+)")


def wire_sizes(film):
    """The sizes of a film's units on the wire."""
    return [sizes.wire_size(unit) for unit in sizes.units_of(film)]


def plan_slots(program, folder, name, words):
    """The bytes of each slot of the film's plan, or None and why there is none."""
    done = subprocess.run([program, "plan", f"film={name}", *words], cwd=folder, capture_output=True, text=True)
    if done.returncode != 0:
        return None, done.stderr.strip()
    slots = []
    for line in done.stdout.splitlines():
        if line.startswith("segment "):
            count, total = map(int, line.split()[1:])
            slots += [(k + 1) * total // count - k * total // count for k in range(count)]
    return slots, None


def most_waiting(slots, units, picture_units, slot_units, startup):
    """The most bytes that wait, by a plan, at the begin of a slot's use."""
    used = [0] * (len(slots) + 1)
    for number, size in enumerate(units):
        at = number * picture_units // slot_units + startup + 1
        if at < len(used):
            used[at] += size
    return max(sent - gone for sent, gone in zip(accumulate(slots), accumulate(used)))


class Watch(threading.Thread):
    """One `watch` of the film."""

    def __init__(self, program, folder, name, port, buffer, startup, slot):
        super().__init__()
        self.words = [f"buffer={buffer}", f"startup={startup}", f"slot={slot}"]
        self.command = [program, "watch", f"film={name}", f"port={port}", *self.words]
        self.folder, self.buffer, self.startup, self.slot = folder, buffer, startup, slot
        self.copy = folder / f"copy.{slot}.{buffer}.{startup}"

    def run(self):
        with open(self.copy, "wb") as out:
            self.done = subprocess.run(self.command, cwd=self.folder, stdout=out, stderr=subprocess.PIPE, text=True)

    def told(self, program, name, film, units):
        """One line of what came of it, and whether that is as promised."""
        head = f"buffer {self.buffer:>7}, start delay {self.startup:>4} slots of {SLOTS[self.slot]}:"
        slots, refused = plan_slots(program, self.folder, name, self.words)
        if slots is None:
            said = self.done.stderr.strip()
            return f"{head} no plan ({refused}); watch: status {self.done.returncode}, {said}", self.done.returncode == 3
        line = LINE.fullmatch(self.done.stderr.strip())
        if self.done.returncode != 0 or not line:
            return f"{head} status {self.done.returncode}, {self.done.stderr.strip()}", False
        _, _, frames, reports, most, over, under = map(int, line.groups())
        promised = most_waiting(slots, units, sizes.TIMES[film[7] & 15], self.slot, self.startup)
        same = self.copy.read_bytes() == film
        text = f"{head} most {most} (plan {promised}), over {over}, under {under}, {frames} frames, {reports} reports"
        return f"{text}; {'the film' if same else 'NOT THE FILM'}", same


def main():
    program, folder, name = sys.argv[1], Path(sys.argv[2]), sys.argv[3]
    film = (folder / name).read_bytes()
    units = wire_sizes(film)
    print(f"film of {len(film)} bytes, {len(units)} units, {sum(units)} bytes on the wire, the largest {max(units)}")
    good = True
    with contextlib.ExitStack() as stack:
        served = []
        for slot in SLOTS:
            place = folder / str(slot)
            place.mkdir()
            (place / name).symlink_to(folder / name)
            words = {"slot": slot, "capacity": 100000000, "workers": len(CLIENTS), "connections": 1}
            server = stack.enter_context(serving.Server(program, place, [name], **words))
            served.append((server, [Watch(program, place, name, server.port, *client, slot) for client in CLIENTS]))
        for _, watches in served:
            for watch in watches:
                watch.start()
        for server, watches in served:
            for watch in watches:
                watch.join()
                line, is_good = watch.told(program, name, film, units)
                print(line, flush=True)
                good = good and is_good
            faults = serving.Journal(server.finish()[0]).faults()
            print("the server's journal:", "; ".join(faults) or "each play has its halt", flush=True)
            good = good and not faults
    sys.exit(0 if good else 1)


main()
