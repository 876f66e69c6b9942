"""Finds the program and runs its commands that need no connection."""

import os
import subprocess
from pathlib import Path

TOOLS = Path(__file__).resolve().parent.parent

# Units of time in a second, by which `slot=` counts.
UNITS_PER_SECOND = 360_000


class ProgramError(Exception):
    """The program is missing, or refused its input; the text says why."""


def find_program(given=None):
    """Returns the path of the program: the given one, the checkout's, or the installed one.

    A checkout's program that isn't built from its sources is refused: to build it takes too long
    for a tool that prints nothing meanwhile.
    """
    if given is None and (TOOLS / "sources.sh").is_file():
        place = TOOLS.parent / "crates" / "vodserve" / "out" / "vodserve"
        call = [TOOLS / "sources.sh", "check", place]
        done = subprocess.run(call, capture_output=True, text=True, check=False)
        if done.returncode != 0:
            raise ProgramError(done.stderr.strip().removeprefix("sources.sh: "))
    else:
        place = Path(given) if given else TOOLS.parent.parent / "bin" / "vodserve"
    if not place.is_file() or not os.access(place, os.X_OK):
        raise ProgramError(f"there is no program at {place}")
    return str(place.resolve() if given else place)


def run(program, command, args, folder=None):
    """Returns what a command prints, each line split at blanks. `args` maps keys to values."""
    call = [program, command] + [f"{key}={value}" for key, value in args.items()]
    done = subprocess.run(call, capture_output=True, text=True, cwd=folder, check=False)
    if done.returncode != 0:
        raise ProgramError(done.stderr.strip() or f"{program}: status {done.returncode}")
    return [line.split() for line in done.stdout.splitlines()]


def segments_of(printed):
    """Returns the segments of a printed plan as pairs of slots and bytes."""
    return [(int(line[1]), int(line[2])) for line in printed if line[0] == "segment"]


def peak_of(segments):
    """Returns the most bytes that a plan sends in one slot."""
    return max((-(-size // count) for count, size in segments if count), default=0)


def slots_of(segments):
    """Returns the bytes that a plan sends in each slot."""
    return [
        (j + 1) * size // count - j * size // count
        for count, size in segments
        for j in range(count)
    ]


def mbit_per_second(size, slot_units):
    """Returns bytes in a slot as Mbit/s."""
    return size * 8 * UNITS_PER_SECOND / (slot_units * 1_000_000)
