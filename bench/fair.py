#!/usr/bin/env python3
"""The day that `vodserve fair` draws from a number, as a plain program: bench/fair.py [PROGRAM]

PROGRAM is the built vodserve (default: ../crates/vodserve/out/vodserve). ChaCha8, the 16 traces,
their plans and the turns are computed here anew: totals in a table of slots, each play's bytes in a
list. The line is compared with the program's for several numbers, plays and capacities. Ends with
status 1 where one differs, what was sent isn't what was booked, or a second run differs.
"""
import os, subprocess, sys

sys.dont_write_bytecode = True
from days import curves, plan

CLIENTS, LIMIT = 256, 1_048_576


def chacha8(number):
    """The words of ChaCha with 8 rounds; the number is the first eight bytes of the key."""
    key = [number & 0xFFFFFFFF, number >> 32] + [0] * 6
    for block in range(2 ** 64):
        start = [
            0x61707865, 0x3320646E, 0x79622D32, 0x6B206574, *key, block & 0xFFFFFFFF, block >> 32,
            0, 0]
        x = list(start)
        for _ in range(4):
            for a, b, c, d in ((0, 4, 8, 12), (1, 5, 9, 13), (2, 6, 10, 14), (3, 7, 11, 15),
                               (0, 5, 10, 15), (1, 6, 11, 12), (2, 7, 8, 13), (3, 4, 9, 14)):
                for i, j, k, turn in ((a, b, d, 16), (c, d, b, 12), (a, b, d, 8), (c, d, b, 7)):
                    x[i] = (x[i] + x[j]) & 0xFFFFFFFF
                    x[k] ^= x[i]
                    x[k] = (x[k] << turn | x[k] >> 32 - turn) & 0xFFFFFFFF
        yield from ((a + b) & 0xFFFFFFFF for a, b in zip(x, start))


class Play:
    """A play of a trace: when it starts, what it sends in which slot, what it was asked with: the
    sizes that weren't played yet, buffer, start delay, and the bytes played and sent before."""

    def __init__(self, start, slots, asked):
        self.start, self.slots, self.asked, self.keep = start, slots, asked, sum(slots)
        self.sums = [0]
        for size in slots:
            self.sums.append(self.sums[-1] + size)

    def sent(self, slot):
        return min(self.sums[max(0, min(slot + 1 - self.start, len(self.slots)))], self.keep)


class Fair:
    def __init__(self, number, capacity):
        self.words, self.capacity = chacha8(number), capacity
        self.traces = [self.trace() for _ in range(16)]
        self.totals, self.clients, self.now, self.heard = {}, {}, 0, 0
        self.entries = self.open = self.sent = 0
        self.admitted = self.overflow = self.halted = self.full = 0

    def draw(self, n):
        return next(self.words) % n

    def trace(self):
        pictures = 100 + self.draw(101)
        return [(200 + self.draw(1800)) * (1 if k % 12 else 4) for k in range(pictures)]

    def halt(self, play, keep):
        for j in range(len(play.slots)):
            slot = play.start + j
            self.totals[slot] -= play.sums[j + 1] - play.sums[j] - (
                min(play.sums[j + 1], keep) - min(play.sums[j], keep))
        play.keep = keep
        self.entries, self.open, self.halted = self.entries + 1, self.open - 1, self.halted + 1

    def settle(self, client):
        state, play = self.clients[client]
        if state == "pausing" and play.sent(self.heard) == play.keep:
            self.clients[client] = "paused", play

    def slot(self, slot):
        for client in sorted(self.clients):
            state, play = self.clients[client]
            if state in ("playing", "pausing"):
                self.sent += play.sent(slot) - play.sent(self.heard)
        self.heard = slot
        for client in sorted(self.clients):
            self.settle(client)
            state, play = self.clients[client]
            if state == "playing" and slot >= play.start and play.sent(slot) == play.keep:
                self.halt(play, play.keep)
                self.clients[client] = "idle", play

    def ask(self, client, sizes, buffer, delay, played, before):
        made = curves(sizes, 1, 1, buffer, delay, played, before)
        if isinstance(made, str):
            return
        if self.entries + self.open + 2 > LIMIT:
            self.full += 1
            return
        slots = plan(before, *made)
        self.now = max(self.now, self.heard)
        start = self.now + 1
        self.entries += 1
        if any(
            self.totals.get(start + j, 0) + size > self.capacity for j, size in enumerate(slots)):
            self.overflow += 1
            return
        for j, size in enumerate(slots):
            self.totals[start + j] = self.totals.get(start + j, 0) + size
        self.open, self.admitted = self.open + 1, self.admitted + 1
        self.clients[client] = "playing", Play(start, slots, (sizes, buffer, delay, played, before))

    def pause(self, client, play):
        sizes, buffer, delay, played, before = play.asked
        sent, end, left = before + play.sent(self.heard), played, iter(sizes)
        while end < sent:
            end += next(left)
        keep = end - before
        if self.heard >= play.start:
            last = max(
                self.heard - play.start,
                next(j for j in range(len(play.slots)) if play.sums[j + 1] >= keep))
            count = sum(k + delay < last for k in range(len(sizes)))
            played, sizes = played + sum(sizes[:count]), sizes[count:]
        self.halt(play, keep)
        play.resume = sizes, buffer, delay, played, before + keep
        self.clients[client] = "pausing", play
        self.settle(client)

    def turn(self):
        d = self.draw(4)
        if d:
            self.slot(self.heard + d)
        client = self.draw(CLIENTS)
        state, play = self.clients.get(client, ("idle", None))
        if state == "playing":
            self.pause(client, play)
        elif state == "paused":
            self.ask(client, *play.resume)
        elif state == "idle":
            trace, buffer, delay = self.traces[
                self.draw(16)], 16384 + self.draw(16384), self.draw(26)
            self.ask(client, trace, buffer, delay, 0, 0)

    def line(self, turns):
        for _ in range(turns):
            self.turn()
        for client in sorted(self.clients):
            state, play = self.clients[client]
            if state == "playing":
                self.halt(play, play.sent(self.heard))
        booked = [size for slot, size in self.totals.items() if slot <= self.heard]
        return (
            f"fair turns={turns} admitted={self.admitted} overflow={self.overflow}"
            f" halted={self.halted} full={self.full} last={self.heard} sent={self.sent}"
            f" booked={sum(booked)} peak={max(booked, default=0)}\n")


def main():
    here = os.path.dirname(os.path.abspath(__file__))
    program = os.path.abspath(
        sys.argv[1] if len(sys.argv) > 1 else here + "/../crates/vodserve/out/vodserve")
    differing = 0
    cases = [
        (7, 2000, 50_000), (7, 1, 50_000), (0, 300, 50_000), (2 ** 64 - 1, 500, 20_000),
        (1, 800, 9_000), (2, 400, 1), (3, 1500, 2 ** 42)]
    for number, plays, capacity in cases:
        words = [program, "fair", f"seed={number}", f"plays={plays}", f"capacity={capacity}"]
        runs = [subprocess.run(words, capture_output=True, text=True) for _ in range(2)]
        told, wanted = runs[0].stdout, Fair(number, capacity).line(plays)
        parts = dict(word.split("=") for word in told.split()[1:])
        good = told == wanted == runs[1].stdout and parts["sent"] == parts["booked"] and int(
            parts["peak"]) <= capacity
        if not good:
            differing += 1
            print(f"differs: {' '.join(words[1:])}\n  told   {told}  expected {wanted}")
    print(f"{len(cases)} days, {differing} differ")
    sys.exit(1 if differing else 0)


if __name__ == "__main__":
    main()
