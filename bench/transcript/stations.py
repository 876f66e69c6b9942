"""The admission machine of a shared link, over a plain list of plays."""


class Admitted:
    def __init__(self, number, start, slots):
        self.number, self.start, self.slots, self.keep, self.open = number, start, slots, sum(
            slots), True
        self.sums = [0]
        for size in slots:
            self.sums.append(self.sums[-1] + size)

    def sum(self, slot):
        """The bytes of the plan up to a slot."""
        return self.sums[max(0, min(slot + 1 - self.start, len(self.slots)))]

    def due(self, slot):
        return min(self.sum(slot), self.keep)


class Station:
    """The admission machine: a list of plays, of which none is ever forgotten."""

    def __init__(self, steps, limit):
        self.steps, self.limit, self.plays, self.now, self.lines = steps, limit, {}, 0, []

    def capacity(self, slot):
        return [size for first, size in self.steps if first <= slot][-1]

    def booked(self, slot):
        return sum(play.due(slot) - play.due(slot - 1) for play in self.plays.values())

    def open(self):
        return sum(play.open for play in self.plays.values())

    def overflow(self, start, slots):
        for j, asked in enumerate(slots):
            booked = self.booked(start + j)
            if booked + asked > self.capacity(start + j):
                return start + j, booked, asked

    def entry(self, maker, text):
        self.lines.append(f"{len(self.lines)} seat={maker} {text}")
        return len(self.lines) - 1

    def ask(self, maker, command):
        """The answer to a command, with its place."""
        if command[0] == "play":
            _, slot, slots = command
            if len(self.lines) + self.open() + 2 > self.limit:
                return "full", len(self.lines), self.open()
            self.now = max(self.now, slot)
            start, text = self.now + 1, f"play slot={slot} slots={len(slots)} bytes={sum(slots)}"
            over = self.overflow(start, slots)
            if over:
                return "overflow", self.entry(
                    maker, text + " overflow slot=%d booked=%d asked=%d" % over), over
            place = self.entry(maker, f"{text} admitted start={start}")
            self.plays[place] = Admitted(place, start, slots)
            return "admitted", place, start
        if command[0] == "halt":
            _, number, keep = command
            play = self.plays[number]
            assert play.open and keep <= play.keep
            play.keep, play.open = keep, False
            return "halted", self.entry(maker, f"halt number={number} keep={keep} halted")
        if command[0] == "look":
            if len(self.lines) + self.open() + 1 > self.limit:
                return "full", len(self.lines), self.open()
            at = max(command[1], self.now)
            told = self.now, at, self.booked(at)
            return "looked", self.entry(
                maker, f"look slot={command[1]} looked now=%d at=%d booked=%d" % told), told
        _, slot, wait, slots = command
        first, tried = max(self.now, slot) + 1, []
        for start in range(first, first + wait + 1):
            over = self.overflow(start, slots)
            if not over:
                return "offered", len(self.lines), first, start, tried
            tried.append((start, *over))
        return "offered", len(self.lines), first, None, tried

    def calendar(self):
        last = max((play.start + len(play.slots) for play in self.plays.values()), default=0)
        found = [
            (slot, self.booked(slot))
            for slot in range(self.now, last)] if last - self.now < 10_000 else []
        return [f"calendar from={self.now}"] + [
            f"at {slot} booked={size}" for slot, size in found if size] + ["end"]
