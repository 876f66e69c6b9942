"""Draws what the plays of a script book of a link, from what `day` prints."""

import os
import tempfile

from vodtools.panels import HEIGHT, Panel, svg_of
from vodtools.plan_picture import sums_of
from vodtools.program import run, segments_of, slots_of

COLORS = ["#7aa6d8", "#e6a15c", "#8cc28c", "#c98bb9", "#d8c56a", "#8fb9b9"]


class Play:
    """An admitted play: what its plan books in each slot from its start, up to what it keeps."""

    def __init__(self, number, client, start, slots):
        self.number, self.client, self.start, self.slots = number, client, start, slots
        self.keep = self.total = sum(slots)

    def kept(self):
        """Returns the bytes of each slot from the start on."""
        sums = [0] + [min(total, self.keep) for total in sums_of(self.slots)]
        return [b - a for a, b in zip(sums, sums[1:])]

    def booked(self, end):
        """Returns the bytes of each slot before `end`."""
        return ([0] * self.start + self.kept() + [0] * end)[:end]

    def is_done(self, slot):
        return slot >= self.start and sum(self.slots[: slot - self.start + 1]) == self.total


class Day:
    """The plays of a script, as the lines that `day` printed show them."""

    def __init__(self, program, args):
        self.program, self.args = program, args
        self.printed = run(program, "day", args)
        self.at, self.slot, self.plays, self.open = 0, 0, [], {}
        with open(args["script"], encoding="ascii") as script:
            self.lines = script.read().splitlines()
        for number, line in enumerate(self.lines, 1):
            self.follow(line.split(), number)
        while "halt" in self.front():
            self.halt(self.next())

    def front(self):
        return self.printed[self.at] if self.at < len(self.printed) else []

    def next(self):
        self.at += 1
        return self.printed[self.at - 1]

    def follow(self, line, number):
        """Reads what was printed for the line of that number in the script."""
        if not line:
            return
        if line[0] == "offer":
            while self.front()[0] == "tried":
                self.next()
        printed = self.next()
        if line[0] == "slot":
            self.slot = int(line[1])
            for _ in [play for play in self.open.values() if play.is_done(self.slot)]:
                self.halt(self.next())
        elif line[0] == "play" and "admitted" in printed:
            self.admit(int(line[1]), printed, self.asked(line))
        elif line[0] == "pause" and "halt" in printed:
            self.halt(printed)
        elif line[0] == "resume" and "admitted" in printed:
            self.admit(int(line[1]), printed, self.resumed(number, printed))

    def asked(self, line):
        """Returns the bytes of each slot of the plan that a line `play` asks for."""
        args = {line[2]: line[3], "buffer": line[4], "startup": line[5]}
        if line[2] == "film" and "slot" in self.args:
            args["slot"] = self.args["slot"]
        return slots_of(segments_of(run(self.program, "plan", args)))

    def resumed(self, number, printed):
        """Returns the bytes of each slot of the plan with which the `resume` of a line asked.

        The script up to this line is run again, and then a slot after the end of all plays. What
        its calendar has beyond the other open plays is the plan.
        """
        start, count = start_of(printed), int(printed[4].split("=")[1])
        ends = [play.start + len(play.slots) for play in self.open.values()]
        end = max([start + count] + ends)
        calendar = self.calendar_until(number, end)
        booked = {int(line[1]): int(line[2].split("=")[1]) for line in calendar if line[0] == "at"}
        others = [sum(values) for values in zip(*[play.booked(end) for play in self.plays])]
        return [booked.get(slot, 0) - others[slot] for slot in range(start, start + count)]

    def calendar_until(self, number, end):
        """Returns what `day` prints for the script up to a line, and then for the slot `end`."""
        lines = map(str.split, self.lines[:number])
        names = {args[3] for args in lines if args and args[0] in ("play", "offer")}
        script = next(name for name in map(str, range(len(names) + 1)) if name not in names)
        with tempfile.TemporaryDirectory() as folder:
            for name in names:
                os.symlink(os.path.abspath(name), os.path.join(folder, name))
            with open(os.path.join(folder, script), "w", encoding="ascii") as front:
                front.write("\n".join(self.lines[:number] + [f"slot {end}"]) + "\n")
            return run(self.program, "day", dict(self.args, script=script), folder)

    def admit(self, client, printed, slots):
        play = Play(int(printed[0]), client, start_of(printed), slots)
        self.plays.append(play)
        self.open[play.number] = play

    def halt(self, printed):
        values = dict(word.split("=") for word in printed if "=" in word)
        self.open.pop(int(values["number"])).keep = int(values["keep"])


def start_of(printed):
    """Returns the start in the line of an admission."""
    return int(printed[-1].split("=")[1])


def capacity_steps(text):
    """Returns the steps of a capacity: one number, or steps SLOT:BYTES."""
    if ":" not in text:
        return [(0, int(text))]
    return [tuple(map(int, part.split(":"))) for part in text.split(",")]


def capacities_of(text, end):
    """Returns the capacity of each slot before `end`."""
    steps, values = dict(capacity_steps(text)), []
    for slot in range(end):
        values.append(steps.get(slot, values[-1] if values else 0))
    return values


def draw_day(program, args):
    day = Day(program, args)
    end = max([day.slot + 1] + [play.start + len(play.slots) for play in day.plays])
    capacities = capacities_of(args.get("capacity", "50000"), end)
    title = "bytes booked in each slot, play on play, below the capacity"
    panel = Panel(30, end, max(capacities), title)
    below, layers = [0] * end, []
    for play in day.plays:
        booked = play.booked(end)
        below = [a + b for a, b in zip(below, booked)]
        layers.append((play, booked, below))
    for play, booked, top in reversed(layers):
        panel.area(f"play{play.number}", booked, top, COLORS[play.client % len(COLORS)])
    panel.steps("capacity", capacities, "#c33")
    last = f'd="M{panel.x(day.slot + 1)},{panel.top}v{HEIGHT}" stroke="#555"'
    panel.add("path", "last", [day.slot], last + ' stroke-dasharray="4 4"')
    clients = sorted({play.client for play in day.plays})
    names = [("capacity", "#c33"), ("last slot", "#555")]
    return svg_of([panel], names + [(f"client {c}", COLORS[c % len(COLORS)]) for c in clients])
