#!/usr/bin/env python3
"""A link's day as a plain program, beside `vodserve day`: bench/days.py [PROGRAM] [SCRIPTS]

PROGRAM is the built vodserve (default: ../crates/vodserve/out/vodserve). Each of SCRIPTS (default 2,000) drawn scripts is run
here anew, slot by slot, from lists of all plays added up: no ring of slots, no blocks, no pacer. The plans are found from their
definition (the longest straight lines between the two curves of a film or trace), a film's units are cut into packets by the
rules of RFC 2250 as the server uses them. Drawn are plays of films and traces, pauses, resumes, looks, offers and slots, small
journals, capacities that change, and bad lines. Ends with status 1 where something differs.
"""
import os, random, subprocess, sys, tempfile
from fractions import Fraction

PAYLOAD, FRAME, REPORT = 1380, 20, 52
TIMES = {1: 15015, 2: 15000, 3: 14400, 4: 12012, 5: 12000, 6: 7200, 7: 6006, 8: 6000}


class Source:
    """The sizes of the pieces (frames and reports) of each picture, and the time of a picture."""

    def __init__(self, pictures, time):
        self.pictures, self.time = pictures, time
        self.sizes = [sum(pieces) for pieces in pictures]
        self.ends = [0]
        for pieces in pictures:
            for piece in pieces:
                self.ends.append(self.ends[-1] + piece)

    def boundary(self, at):
        return min(end for end in self.ends if end >= at)


def packets(head, slices):
    """The payloads of a unit: its head, and slices of these lengths."""
    done, now, only_head = [], head, True
    for length in slices:
        if length <= PAYLOAD:
            if now + length <= PAYLOAD:
                now += length
            else:
                done.append(now)
                now = length
        else:
            if now and not (only_head and now < PAYLOAD):
                done.append(now)
                now = 0
            rest = length
            while now + rest > PAYLOAD:
                done.append(PAYLOAD)
                rest -= PAYLOAD - now
                now = 0
            done.append(now + rest)
            now = 0
        only_head = False
    return done + ([now] if now else [])


def is_slice(kind):
    return 0x01 <= kind <= 0xAF


def unit_starts(codes):
    """The first code, and each picture, sequence or group code that is the first of these after a slice."""
    starts, after_slice = [], True
    for k, (_, kind) in enumerate(codes):
        if kind in (0x00, 0xB3, 0xB8):
            if after_slice:
                starts.append(k)
            after_slice = False
        elif is_slice(kind):
            after_slice = True
    return starts


def film_source(film):
    codes = [(i, film[i + 3]) for i in range(len(film) - 3) if film[i:i + 3] == b"\0\0\1"]
    starts = unit_starts(codes)
    pictures = []
    for number, k in enumerate(starts):
        end = starts[number + 1] if number + 1 < len(starts) else len(codes)
        stop = codes[end][0] if end < len(codes) else len(film)
        marks = [place for place, kind in codes[k:end] if is_slice(kind)] + [stop]
        heads = [kind for place, kind in codes[k:end] if place < marks[0]]
        pieces = [FRAME + n for n in packets(marks[0] - codes[k][0], [b - a for a, b in zip(marks, marks[1:])])]
        pictures.append(([REPORT] if number == 0 or 0xB8 in heads else []) + pieces)
    rate = film[next(p for p, kind in codes if kind == 0xB3) + 7] & 15
    return Source(pictures, TIMES[rate])


def curves(sizes, time, slot, buffer, delay, played, sent):
    """What must and what may have been sent by the end of each slot, or the refusal."""
    if not sizes:
        return "NoPictures"
    slots = (len(sizes) - 1) * time // slot + delay + 1
    if slots > 1_000_000:
        return f"TooManySlots {slots}"
    uses = [0] * slots
    for k, size in enumerate(sizes):
        uses[k * time // slot + delay] += size
    for t, use in enumerate(uses):
        if use > buffer:
            return f"BufferTooSmall {t} {use} {max(uses)}"
    total, used, low, up = played + sum(sizes), played, [], []
    for use in uses:
        up.append(min(total, used + buffer))
        used += use
        low.append(max(sent, used))
    return low, up


def plan(sent, low, up):
    """The bytes of each slot of the one taut list of straight lines."""
    slots, height, at = [], sent, 0
    while at < len(low):
        most_low = least_up = None
        for t in range(at, len(low)):
            n = t + 1 - at
            asks, allows = Fraction(low[t] - height, n), Fraction(up[t] - height, n)
            if most_low is not None and allows < most_low[0]:
                slope, end = most_low
                break
            if least_up is not None and asks > least_up[0]:
                slope, end = least_up
                break
            if most_low is None or asks >= most_low[0]:
                most_low = asks, t
            if least_up is None or allows <= least_up[0]:
                least_up = allows, t
        else:
            end = len(low) - 1
            slope = Fraction(low[end] - height, end + 1 - at)
        n = end + 1 - at
        gain = slope * n
        assert gain.denominator == 1
        gain = int(gain)
        slots += [(j + 1) * gain // n - j * gain // n for j in range(n)]
        height, at = height + gain, end + 1
    return slots


class Play:
    def __init__(self, start, slots):
        self.start, self.slots, self.keep, self.open = start, slots, sum(slots), True
        self.sums = [0]
        for bytes in slots:
            self.sums.append(self.sums[-1] + bytes)

    def sent(self, slot):
        """The bytes through a slot, of those that it keeps."""
        return min(self.sums[max(0, min(slot + 1 - self.start, len(self.slots)))], self.keep)

    def booked(self, slot):
        return self.sent(slot) - self.sent(slot - 1)


class Day:
    def __init__(self, capacity, limit, slot):
        self.capacity, self.limit, self.slot = capacity, limit, slot
        self.plays, self.now, self.heard, self.count, self.clients, self.out = {}, 0, 0, 0, {}, []

    def room(self, slot):
        return [bytes for first, bytes in self.capacity if first <= slot][-1]

    def booked(self, slot):
        return sum(play.booked(slot) for play in self.plays.values())

    def live(self):
        return sum(play.open for play in self.plays.values())

    def overflow(self, start, slots):
        for j, asked in enumerate(slots):
            booked = self.booked(start + j)
            if booked + asked > self.room(start + j):
                return start + j, booked, asked

    def entry(self, maker, text):
        self.out.append(f"{self.count} seat={maker} {text}")
        self.count += 1

    def curves_of(self, source, first, buffer, delay, played, sent):
        return curves(source.sizes[first:], source.time or self.slot, self.slot, buffer, delay, played, sent)

    def ask(self, client, source, first, buffer, delay, played, sent):
        made = self.curves_of(source, first, buffer, delay, played, sent)
        if isinstance(made, str):
            self.out.append(f"refused {made}")
            return
        if self.count + self.live() + 2 > self.limit:
            self.out.append(f"refused journal entries={self.count} open={self.live()}")
            return
        slots = plan(sent, *made)
        self.now = max(self.now, self.heard)
        start = self.now + 1
        over = self.overflow(start, slots)
        asked = f"play slot={self.heard} slots={len(slots)} bytes={sum(slots)}"
        if over:
            self.entry(client, asked + " overflow slot=%d booked=%d asked=%d" % over)
            return
        self.plays[self.count] = Play(start, slots)
        self.clients[client] = ("playing", self.count, source, first, buffer, delay, played, sent)
        self.entry(client, f"{asked} admitted start={start}")

    def halt(self, client, number, keep):
        self.plays[number].keep, self.plays[number].open = keep, False
        self.entry(client, f"halt number={number} keep={keep} halted")

    def pause(self, client):
        state = self.clients.get(client, ("idle",))
        if state[0] != "playing":
            self.out.append("refused state")
            return
        _, number, source, first, buffer, delay, played, before = state
        play = self.plays[number]
        sent = play.sent(self.heard)
        keep = source.boundary(before + sent) - before
        if self.heard >= play.start:
            stop = max(self.heard - play.start, next(t for t in range(len(play.slots)) if play.sums[t + 1] >= keep))
            time = source.time or self.slot
            rest = range(first, len(source.sizes))
            after = first + sum((k - first) * time // self.slot + delay < stop for k in rest)
            played += sum(source.sizes[first:after])
            first = after
        self.clients[client] = ("pausing", number, source, first, buffer, delay, played, before + keep)
        self.halt(client, number, keep)
        self.settle(client)

    def settle(self, client):
        state = self.clients[client]
        if state[0] == "pausing":
            play = self.plays[state[1]]
            if play.sent(self.heard) == play.keep:
                self.clients[client] = ("paused",) + state[1:]

    def to_slot(self, slot):
        under_way = [self.plays[state[1]] for state in self.clients.values() if state[0] in ("playing", "pausing")]
        sent = sum(play.sent(slot) - play.sent(self.heard) for play in under_way)
        booked = sum(play.sent(slot) - play.sent(self.heard) for play in self.plays.values())
        if slot - self.heard < 50:
            assert booked == sum(self.booked(t) for t in range(self.heard + 1, slot + 1))
        self.out.append(f"slot {slot} sent={sent} booked={booked}")
        self.heard = slot
        for client in sorted(self.clients):
            self.settle(client)
        for client in sorted(self.clients):
            state = self.clients[client]
            if state[0] == "playing":
                play = self.plays[state[1]]
                if play.start <= slot and play.sent(slot) == play.keep:
                    self.halt(client, state[1], play.keep)
                    self.clients[client] = ("idle",)

    def line(self, words, sources):
        verb, state = words[0], self.clients.get(int(words[1]), ("idle",))
        if verb == "slot":
            self.to_slot(int(words[1]))
        elif verb == "pause":
            self.pause(int(words[1]))
        elif verb == "look":
            if self.count + self.live() + 1 > self.limit:
                self.out.append(f"refused journal entries={self.count} open={self.live()}")
                return
            at = max(int(words[1]), self.now)
            self.entry(0, f"look slot={int(words[1])} looked now={self.now} at={at} booked={self.booked(at)}")
        elif verb == "resume":
            if state[0] == "paused":
                self.ask(int(words[1]), *state[2:])
            else:
                self.out.append("refused state")
        elif verb == "play":
            if state[0] in ("playing", "pausing"):
                self.out.append("refused state")
            else:
                self.ask(int(words[1]), sources[words[2], words[3]], 0, int(words[4]), int(words[5]), 0, 0)
        else:
            self.offer(sources[words[2], words[3]], *map(int, words[4:]))

    def offer(self, source, buffer, delay, wait):
        made = self.curves_of(source, 0, buffer, delay, 0, 0)
        if isinstance(made, str):
            self.out.append(f"refused {made}")
            return
        slots, first, tried = plan(0, *made), max(self.now, self.heard) + 1, 0
        for start in range(first, first + wait + 1):
            over = self.overflow(start, slots)
            if not over:
                self.out.append(f"offer start={start} tried={tried}")
                return
            self.out.append("tried start=%d slot=%d booked=%d asked=%d" % (start, *over))
            tried += 1
        self.out.append(f"offer none tried={tried}")

    def end(self):
        for client in sorted(self.clients):
            state = self.clients[client]
            if state[0] == "playing":
                self.halt(client, state[1], self.plays[state[1]].sent(self.heard))
        self.out.append(f"calendar from={self.now}")
        last = max((play.start + len(play.slots) for play in self.plays.values()), default=0)
        for slot in range(self.now, last):
            if self.booked(slot):
                self.out.append(f"at {slot} booked={self.booked(slot)}")
        self.out.append("end")


BAD = ["pause", "pause 256", "pause -1", "pause 0 0", "play 0 trace", "play 0 trace t0 0 0", "play 0 trace t0 4398046511105 0", "look x", "look",
       "play 0 trace t0 7 10001", "play 256 trace t0 7 0", "play 0 trace t0 7", "play 0 trace t0 7 0 1", "play 0 trace .t 7 0", "play 0 Trace t0 7 0",
       "play 0 trace a/b 7 0", "slot 0", "slot 4611686018427387905", "look 4611686018427387905", "look 18446744073709551616", "pause  0", " pause 0",
       "pause\t0", "resume 0 ", "play 0 movie a 7 0", "offer 0 trace t0 7 0 256", "offer 0 trace t0 7 0", "stop 0", "pause 0\0", "pause 0x", " "]
FAULTS = {("trace", "none"): "NotFound", ("film", "none.mpg"): "NotFound", ("trace", "x"): "BadTrace 2", ("trace", "f0"): "BadTrace 0",
          ("film", "empty"): "Empty", ("film", "t0"): "NoSequence"}


def drawn(rng, names):
    """A script's lines, the number of its first bad one, or 0, and the first fault of a film or trace, or None."""
    lines, heard, bad, fault = [], 0, 0, None
    for _ in range(rng.randrange(1, 60)):
        kind = rng.randrange(20)
        client = rng.choice([0, 1, 2, 255])
        film, name, least = rng.choice(names)
        buffer = rng.choice([least, least + 5, 2 * least + 7, 1 << 20])
        if rng.randrange(25) == 0:
            buffer = max(1, least - 1)
        if kind < 6:
            lines.append(f"play {client} {film} {name} {buffer} {rng.randrange(6)}")
        elif kind < 9:
            lines.append(f"pause {client}")
        elif kind < 12:
            lines.append(f"resume {client}")
        elif kind == 12:
            lines.append(f"look {heard + rng.randrange(8)}")
        elif kind == 13:
            lines.append(f"offer {client} {film} {name} {buffer} {rng.randrange(6)} {rng.randrange(9)}")
        elif kind == 14 and rng.randrange(10) == 0:
            lines.append(rng.choice(BAD + [f"slot {heard}"]))
            bad = bad or len(lines)
        elif kind == 14 and rng.randrange(10) == 0:
            film, name = rng.choice(list(FAULTS))
            lines.append(f"play 0 {film} {name} 7 0")
            fault = fault or f"{name}: {FAULTS[film, name]}"
        elif kind == 14 and rng.randrange(10) == 0:
            lines.append(rng.choice(["look 4611686018427387904", "pause 000", "look 007", "slot 4611686018427387904", "resume 0255"]))
            if lines[-1].startswith("slot"):
                return lines, bad, fault
        elif kind == 15:
            lines.append("")
        else:
            heard += rng.choice([1, 1, 1, 2, 3, 7])
            lines.append(f"slot {heard}")
    return lines, bad, fault


def compare(program, number, sources, names):
    rng = random.Random(number)
    lines, bad, fault = drawn(rng, names)
    peak = rng.choice([400, 1500, 4000, 50000])
    steps = [(0, peak)] + sorted((rng.randrange(1, 30) + 40 * k, rng.choice([0, peak // 2, peak, 2 * peak])) for k in range(rng.randrange(3)))
    limit, slot = rng.choice([2, 3, 6, 20, 65536]), rng.choice([14400, 14400, 7200, 20000])
    end = rng.choice(["\n"] * 9 + [""] * 9 + ["\r"])
    text = rng.choice(["\n", "\r\n"]).join(lines) + end
    bad = bad or (len(lines) if end == "\r" else 0)
    with open("s.txt", "w", newline="") as file:
        file.write(text)
    capacity = ",".join(f"{first}:{bytes}" for first, bytes in steps)
    words = [program, "day", "script=s.txt", f"capacity={capacity}", f"journal={limit}", f"slot={slot}"]
    ran = subprocess.run(words, capture_output=True, text=True)
    if bad:
        wanted = (3, "", f"vodserve: s.txt: BadScript {bad}\n")
    elif fault:
        wanted = (3, "", f"vodserve: {fault}\n")
    else:
        day = Day(steps, limit, slot)
        for line in lines:
            if line:
                day.line(line.split(), sources)
        day.end()
        wanted = (0, "".join(line + "\n" for line in day.out), "")
    got = (ran.returncode, ran.stdout, ran.stderr)
    if got != wanted:
        print(f"script {number} differs: {' '.join(words[1:])}\n{text}\n-- wanted\n{wanted[1]}{wanted[2]}-- got\n{got[1]}{got[2]}")
    return got == wanted


def main():
    here = os.path.dirname(os.path.abspath(__file__))
    program = os.path.abspath(sys.argv[1] if len(sys.argv) > 1 else os.path.join(here, "../crates/vodserve/out/vodserve"))
    count = int(sys.argv[2]) if len(sys.argv) > 2 else 2000
    folder = tempfile.TemporaryDirectory()
    os.chdir(folder.name)
    rng, sources, names = random.Random(1), {}, []
    for number in range(6):
        sizes = [rng.choice([0, 1, 5, rng.randrange(2000)]) for _ in range(rng.randrange(0 if number == 5 else 1, 30))]
        with open(f"t{number}", "w") as file:
            file.write("\n".join(map(str, sizes)))
        sources["trace", f"t{number}"] = Source([[size] for size in sizes], None)
        names.append(("trace", f"t{number}", max(sizes, default=0) or 1))
    for number in range(3):
        film = subprocess.run([program, "make", "kind=film", f"seed={number}", f"pictures={5 + 8 * number}"], capture_output=True).stdout
        with open(f"f{number}", "wb") as file:
            file.write(film)
        sources["film", f"f{number}"] = film_source(film)
        names.append(("film", f"f{number}", max(sources["film", f"f{number}"].sizes)))
    for name, text in (("x", "1 x"), ("empty", "")):
        with open(name, "w") as file:
            file.write(text)
    same = sum(compare(program, number, sources, names) for number in range(count))
    print(f"{same} of {count} scripts the same")
    sys.exit(same != count)


if __name__ == "__main__":
    main()
