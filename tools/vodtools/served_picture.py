"""Draws and sums up what `serve` printed at its end: plays, refusals, halts, and bookings.

The journal has the number of slots and bytes of each play, and not its plan. Where a film of
`films=` has a plan of these numbers, that plan is drawn; else the bytes are spread evenly.
"""

import re
from collections import Counter

from vodtools.day_picture import Play, capacity_steps
from vodtools.panels import FACE, GAP, HEIGHT, LEFT, Panel, WIDTH, legend, svg_of_parts
from vodtools.program import mbit_per_second, run, segments_of, slots_of

ENTRY = re.compile(
    r"(?P<number>\d+) seat=(?P<seat>\d+) (?:"
    r"play slot=(?P<asked>\d+) slots=(?P<slots>\d+) bytes=(?P<bytes>\d+) (?:"
    r"admitted start=(?P<start>\d+)|overflow slot=(?P<full>\d+) booked=\d+ asked=\d+)"
    r"|halt number=(?P<halted>\d+) keep=(?P<keep>\d+) halted"
    r"|look slot=\d+ looked now=\d+ at=(?P<at>\d+) booked=(?P<booked>\d+))"
)
AT = re.compile(r"at (\d+) booked=(\d+)")
SERVED = re.compile(r"served connections=(\d+) entries=(\d+)")
# The most values that a picture has; with more slots a value is the greatest of several.
MOST_VALUES = 1800
# The slots without room that a table names.
MOST_ROWS = 8


class BadText(Exception):
    """A text that `serve` doesn't print."""


class Served:
    """The journal and the calendar of a server that ended."""

    def __init__(self, name, plans):
        self.name, self.plans = name, plans
        self.plays, self.refused, self.looks, self.later = {}, [], [], {}
        self.halts, self.connections = [], None
        self.exact = True
        try:
            with open(name, encoding="ascii") as file:
                lines = file.read().splitlines()
        except (OSError, UnicodeDecodeError) as error:
            raise BadText(f"{name}: can't be read: {error}") from error
        for number, line in enumerate(lines, 1):
            self.read_line(number, line)
        if self.connections is None:
            raise BadText(f"{name}: has no line 'served connections=C entries=E' at its end")

    def read_line(self, number, line):
        entry, at, served = ENTRY.fullmatch(line), AT.fullmatch(line), SERVED.fullmatch(line)
        if entry:
            self.read_entry(number, {key: int(it) for key, it in entry.groupdict("-1").items()})
        elif at:
            self.later[int(at[1])] = int(at[2])
        elif served:
            self.connections = int(served[1])
        elif line != "end" and not re.fullmatch(r"calendar from=\d+", line):
            raise BadText(
                f"{self.name}:{number}: '{line[:60]}' isn't a line that serve prints;"
                " 'vodserve serve film=.. connections=N > served.txt' writes such a file"
            )

    def read_entry(self, number, entry):
        if entry["start"] >= 0:
            slots = self.plan_of(entry["slots"], entry["bytes"])
            play = Play(entry["number"], entry["seat"], entry["start"], slots)
            self.plays[entry["number"]] = play
        elif entry["full"] >= 0:
            self.refused.append((entry["asked"], entry["full"]))
        elif entry["halted"] >= 0:
            if entry["halted"] not in self.plays:
                raise BadText(f"{self.name}:{number}: play {entry['halted']} wasn't admitted")
            self.halts.append(entry["halted"])
            self.plays[entry["halted"]].keep = entry["keep"]
        else:
            self.looks.append((entry["at"], entry["booked"]))

    def plan_of(self, slots, size):
        """Returns the bytes of each slot of a play of so many slots and bytes."""
        for plan in self.plans:
            if len(plan) == slots and sum(plan) == size:
                return plan
        self.exact = False
        return slots_of([(slots, size)])

    def booked(self):
        """Returns the bytes that are booked in each slot that has some."""
        total = Counter()
        for play in self.plays.values():
            for slot, size in enumerate(play.kept(), play.start):
                if size:
                    total[slot] += size
        # the calendar has what was really booked from the last play on
        total.update({slot: size - total[slot] for slot, size in self.later.items()})
        return total

    def halt_slots(self):
        """Returns the slot in which each halted play had sent what it keeps."""
        slots = []
        for number in self.halts:
            play = self.plays[number]
            sizes = play.kept()
            last = max((k for k, size in enumerate(sizes) if size), default=0)
            slots.append(play.start + last)
        return slots


def stopped_early(play):
    return play.keep < play.total


def load_of(booked, steps, units):
    """Returns the greatest load as a text: bytes, rate, slot, and share of the capacity."""
    slot, size = max(booked.items(), key=lambda it: (it[1], -it[0]))
    limit = [most for begin, most in steps if begin <= slot][-1]
    rate = f"{mbit_per_second(size, units):.2f} Mbit/s"
    share = f", {100 * size / limit:.0f} %" if limit else ""
    return f"{size:,} of {limit:,} bytes in slot {slot:,} ({rate}{share})"


def table_of(served, booked, steps, units):
    """Returns the summary as pairs of a name and a text."""
    plays, refused = len(served.plays), len(served.refused)
    rows = [
        ("connections", f"{served.connections:,}"),
        ("plays", f"{plays + refused:,}: {plays:,} admitted, {refused:,} refused"),
    ]
    early = sum(map(stopped_early, served.plays.values()))
    rows.append(("halts", f"{len(served.halts):,}: {early:,} before the film's end"))
    rows.append(("looks", f"{len(served.looks):,}"))
    if booked:
        rows.append(("greatest load", load_of(booked, steps, units)))
    counts = Counter(full for _, full in served.refused).most_common(MOST_ROWS)
    for slot, count in counts:
        rows.append((f"no room in slot {slot:,}", f"{count:,} refused"))
    rest = len({full for _, full in served.refused}) - len(counts)
    if rest > 0:
        rows.append(("other slots without room", f"{rest:,}"))
    plans = "those of the films" if served.exact else "evenly spread where no film of films= fits"
    rows.append(("bytes in the slots", plans))
    return rows


def values_of(sizes, first, count, each):
    """Returns the greatest value of each group of slots."""
    values = [0] * count
    for slot, size in sizes.items():
        place = (slot - first) // each
        if 0 <= place < count:
            values[place] = max(values[place], size)
    return values


def limits_of(steps, first, count, each):
    """Returns the capacity at the beginning of each group of slots."""
    starts = [first + place * each for place in range(count)]
    return [[size for begin, size in steps if begin <= start][-1] for start in starts]


def draw_events(panel, served, top):
    """Draws a row of marks for each kind of entry, and returns where they end."""
    rows = [
        ("admitted", "#181", [play.start for play in served.plays.values()]),
        ("refused", "#c33", [asked for asked, _ in served.refused]),
        ("halted", "#555", served.halt_slots()),
    ]
    for name, color, slots in rows:
        panel.parts.append(
            f'<text x="{LEFT - 6}" y="{top + 10}" {FACE} text-anchor="end">{name}</text>'
        )
        panel.ticks(name, sorted(slots), top, color)
        top += 18
    return top


def svg_of_served(served, steps, units):
    """Returns the picture: bookings below the capacity, marks of plays, and the table."""
    booked = served.booked()
    used = [*booked, *(asked for asked, _ in served.refused)] or [0]
    first, end = min(used), max(used) + 1
    each = -(-(end - first) // MOST_VALUES)
    count = -(-(end - first) // each)
    limits = limits_of(steps, first, count, each)
    title = "bytes booked in each slot, and the capacity"
    if each > 1:
        title += f" (a value is the greatest of {each:,} slots)"
    panel = Panel(30, count * each, max(limits + [1]), title, first, each)
    panel.steps("booked", values_of(booked, first, count, each), "#2f6fb5", "#cfe0f3", 1)
    panel.steps("capacity", limits, "#c33")
    top = draw_events(panel, served, 30 + HEIGHT + GAP)
    for name, text in table_of(served, booked, steps, units):
        top += 18
        panel.parts.append(
            f'<text x="{LEFT}" y="{top}" {FACE}>{name}</text>'
            f'<text x="{LEFT + 190}" y="{top}" {FACE}>{text}</text>'
        )
    entries = [("booked", "#2f6fb5"), ("capacity", "#c33")]
    return svg_of_parts(LEFT + WIDTH + 20, top + 40, panel.parts + legend(top + 28, entries))


def plans_of(program, args):
    """Returns the plans of the films that are named."""
    names = [name for name in args.get("films", "").split(",") if name]
    keys = {key: args[key] for key in ("buffer", "startup", "slot") if key in args}
    return [
        slots_of(segments_of(run(program, "plan", {"film": name, **keys}))) for name in names
    ]


def draw_served(program, args):
    served = Served(args["file"], plans_of(program, args))
    steps = capacity_steps(args.get("capacity", "50000"))
    units = int(args.get("slot", "14400"))
    if args.get("form") == "table":
        rows = table_of(served, served.booked(), steps, units)
        return "".join(f"{name:28}{text}\n" for name, text in rows)
    return svg_of_served(served, steps, units)
