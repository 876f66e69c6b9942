"""Reads the settings file of the service and turns it into arguments of `vodserve serve`.

The file has one setting in a line, `name = value`. Text from `#` on is a comment. Values are in
people's units (Mbit/s, ms, MiB). Whatever isn't understood is refused with a sentence that names
the file, the line and a value that would be right.
"""

import difflib
import os
import re
from fractions import Fraction
from pathlib import Path

from vodtools.program import UNITS_PER_SECOND

MOST_FILMS = 64
MOST_FILM_BYTES = 1 << 30
MOST_BYTES = 1 << 42
MOST_SLOT = 1 << 62
FILM_ENDINGS = (".mpg", ".mpeg", ".m1v", ".mpv")
NAME = re.compile(r"[A-Za-z0-9_-][A-Za-z0-9._-]{0,63}")
NAME_RULE = "1 to 64 letters, digits, '.', '_' and '-', and doesn't begin with '.'"
AMOUNT = re.compile(r"([0-9]+(?:\.[0-9]+)?)\s*([A-Za-z/]*)")

TIMES = {"ms": Fraction(1, 1000), "s": Fraction(1), "min": Fraction(60), "h": Fraction(3600)}
SIZES = {"bytes": 1, "kB": 10**3, "MB": 10**6, "KiB": 1 << 10, "MiB": 1 << 20, "GiB": 1 << 30}
RATES = {"kbit/s": 10**3, "Mbit/s": 10**6, "Gbit/s": 10**9}
PLACES = {"this machine": "local", "every address": "all"}

# Each setting's value where the file has none.
DEFAULTS = {
    "films": "all",
    "listen": "this machine",
    "port": "8554",
    "slot": "40 ms",
    "capacity": "10 Mbit/s",
    "buffer": "1 MiB",
    "start delay": "1 s",
    "workers": "32",
    "journal": "65536",
}


class SettingsError(Exception):
    """A settings file that isn't understood; the text names file and line."""


class BadValue(Exception):
    """A value that isn't understood; the text says what would be right."""


def read_amount(text, units, example):
    """Returns a number with a unit as an exact fraction in the unit that counts as 1."""
    found = AMOUNT.fullmatch(text)
    if not found or found[2] not in units:
        raise BadValue(f"write a number and one of {', '.join(units)}, for example '{example}'")
    return Fraction(found[1]) * units[found[2]]


def read_count(text, least, most, example):
    """Returns a number without a unit within its range."""
    if not re.fullmatch(r"[0-9]{1,20}", text) or not least <= int(text) <= most:
        raise BadValue(f"write a number from {least} to {most}, for example '{example}'")
    return int(text)


def read_slot(text):
    """Returns a slot's length in 1/360,000 s."""
    units = read_amount(text, {"ms": 360, "s": UNITS_PER_SECOND}, "40 ms")
    # '33.3667 ms' is meant as 12012 units, one picture of 29.97 a second
    if abs(units - round(units)) > Fraction(1, 10):
        near = Fraction(round(units), 360)
        raise BadValue(f"a slot is a multiple of 1/360,000 s: near it is '{float(near):.6g} ms'")
    if not 360 <= round(units) <= UNITS_PER_SECOND:
        raise BadValue("a slot has 1 ms to 1 s, for example '40 ms'")
    return round(units)


def read_rate(text, slot):
    """Returns a rate as bytes in a slot, rounded down: never more than the link has."""
    bits = read_amount(text, RATES, "10 Mbit/s")
    size = int(bits * slot / UNITS_PER_SECOND / 8)
    if not 1 <= size <= MOST_BYTES:
        raise BadValue(f"that is {size} bytes in a slot; the server takes 1 to {MOST_BYTES}")
    return size


def read_capacity(text, slot):
    """Returns the argument `capacity`: one rate, or rates that each begin some time after start."""
    first, *later = [part.strip() for part in text.split(",")]
    steps = [(0, read_rate(first, slot))]
    for part in later:
        rate, found, time = part.partition(" after ")
        if not found:
            raise BadValue("write '10 Mbit/s', or '10 Mbit/s, 4 Mbit/s after 8 h'")
        begin = int(read_amount(time.strip(), TIMES, "8 h") * UNITS_PER_SECOND / slot)
        if not steps[-1][0] < begin <= MOST_SLOT:
            raise BadValue(f"'{time.strip()}' isn't later than the rate before it")
        steps.append((begin, read_rate(rate.strip(), slot)))
    if len(steps) > 64:
        raise BadValue("the server takes at most 64 rates")
    if len(steps) == 1:
        return str(steps[0][1])
    return ",".join(f"{begin}:{size}" for begin, size in steps)


def read_buffer(text):
    """Returns a buffer in bytes."""
    size = read_amount(text, SIZES, "1 MiB")
    if size.denominator != 1 or not 1 <= size <= MOST_BYTES:
        raise BadValue(f"write 1 to {MOST_BYTES} whole bytes, for example '1 MiB'")
    return int(size)


def read_delay(text, slot):
    """Returns the start delay in slots."""
    slots = read_amount(text, TIMES, "1 s") * UNITS_PER_SECOND / slot
    if slots.denominator != 1:
        near = Fraction(round(slots) * slot, UNITS_PER_SECOND)
        raise BadValue(
            f"a start delay is a whole number of slots of {float(Fraction(slot, 360)):.6g} ms:"
            f" near it is '{float(near):.6g} s'"
        )
    if slots > 10_000:
        raise BadValue("the server takes at most 10,000 slots")
    return int(slots)


def read_listen(text):
    """Returns the argument `bind`."""
    if text not in PLACES:
        raise BadValue("write 'this machine' (127.0.0.1) or 'every address' (0.0.0.0)")
    return PLACES[text]


def check_film(folder, name):
    """Refuses a film that the server would refuse for its name or size."""
    if not NAME.fullmatch(name):
        raise BadValue(f"rename '{name}': a film's name has {NAME_RULE}")
    file = Path(folder) / name
    if not file.is_file():
        near = difflib.get_close_matches(name, sorted(os.listdir(folder)), 1)
        raise BadValue(
            f"{folder} has no film '{name}'" + (f"; did you mean '{near[0]}'?" if near else "")
        )
    if not os.access(file, os.R_OK):
        raise BadValue(f"the user of the service may not read {file}: run 'chmod a+r {file}'")
    if file.stat().st_size > MOST_FILM_BYTES:
        raise BadValue(f"'{name}' has {file.stat().st_size:,} bytes; a film has at most 1 GiB")


def read_films(text, folder):
    """Returns the names of the films: those that are named, or all of the folder.

    Without a folder, as on another machine than the server's, names aren't looked for.
    """
    if folder is None:
        return [] if text == "all" else text.split()
    if not os.path.isdir(folder):
        raise BadValue(f"there is no folder {folder} for the films")
    if text == "all":
        names = sorted(it for it in os.listdir(folder) if it.lower().endswith(FILM_ENDINGS))
        if not names:
            raise BadValue(f"{folder} has no film; a film's name ends in {' '.join(FILM_ENDINGS)}")
    else:
        names = text.split()
    if len(names) > MOST_FILMS:
        raise BadValue(f"{len(names)} films; the server takes at most {MOST_FILMS}: name them")
    twice = next((it for it in names if names.count(it) > 1), None)
    if twice:
        raise BadValue(f"'{twice}' is named twice")
    for name in names:
        check_film(folder, name)
    return names


class Settings:
    """The settings of a file, each with its line, and what they mean to the program."""

    def __init__(self, file, folder="."):
        self.file, self.folder = file, os.path.abspath(folder) if folder else None
        self.lines = {}
        self.values = dict(DEFAULTS)
        self.read_lines()
        self.slot = self.meaning("slot", read_slot)
        self.capacity = self.meaning("capacity", read_capacity, self.slot)
        self.buffer = self.meaning("buffer", read_buffer)
        self.startup = self.meaning("start delay", read_delay, self.slot)
        self.bind = self.meaning("listen", read_listen)
        self.port = self.meaning("port", read_count, 1, 65_535, 8554)
        self.workers = self.meaning("workers", read_count, 1, 256, 32)
        self.journal = self.meaning("journal", read_count, 2, 1 << 20, 65_536)
        self.films = self.meaning("films", read_films, self.folder)

    def place_of(self, name):
        """Returns the place of a setting: file and line, or the file alone."""
        return f"{self.file}:{self.lines[name]}" if name in self.lines else str(self.file)

    def refuse(self, line, text):
        raise SettingsError(f"{self.file}:{line}: {text}" if line else f"{self.file}: {text}")

    def read_lines(self):
        """Reads each line's name and value."""
        try:
            text = Path(self.file).read_text(encoding="utf-8")
        except OSError as error:
            self.refuse(None, f"can't be read: {error.strerror}")
        except UnicodeDecodeError:
            self.refuse(None, "isn't a text in UTF-8; examples/vodserve.conf shows one")
        for number, line in enumerate(text.splitlines(), 1):
            setting = line.partition("#")[0].strip()
            if setting:
                self.read_line(number, setting)

    def read_line(self, number, setting):
        name, found, value = setting.partition("=")
        name, value = " ".join(name.split()), " ".join(value.split())
        if not found:
            self.refuse(number, f"'{setting}' has no '='; write it as 'port = 8554'")
        if name not in DEFAULTS:
            near = difflib.get_close_matches(name, DEFAULTS, 1)
            hint = f"did you mean '{near[0]}'?" if near else f"there are: {', '.join(DEFAULTS)}"
            self.refuse(number, f"there is no setting '{name}'; {hint}")
        if name in self.lines:
            self.refuse(number, f"'{name}' is set in line {self.lines[name]} too; keep one line")
        self.lines[name], self.values[name] = number, value

    def meaning(self, name, read, *more):
        """Returns a setting's meaning, or refuses its line."""
        try:
            return read(self.values[name], *more)
        except BadValue as bad:
            default = "" if name in self.lines else ", which is used since no line sets it"
            self.refuse(
                self.lines.get(name), f"'{name} = {self.values[name]}'{default}: {bad}"
            )

    def arguments(self):
        """Returns the arguments of `vodserve`."""
        films = [f"film={name}" for name in self.films]
        pairs = (
            ("port", self.port),
            ("bind", self.bind),
            ("capacity", self.capacity),
            ("slot", self.slot),
            ("buffer", self.buffer),
            ("startup", self.startup),
            ("workers", self.workers),
            ("journal", self.journal),
        )
        return ["serve"] + films + [f"{key}={value}" for key, value in pairs]

    def film_bytes(self):
        """Returns how many bytes all films have."""
        return sum((Path(self.folder) / name).stat().st_size for name in self.films)
