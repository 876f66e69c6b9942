#!/usr/bin/env python3
"""Draws plans, days and links as SVG, from what the program prints.

    draw.py plan trace=NAME [buffer=BYTES] [startup=SLOTS] > plan.svg
        a trace's plan between the bytes that must and may have been sent by each slot
    draw.py day script=NAME [capacity=BYTES] [journal=ENTRIES] [slot=UNITS] > day.svg
        what each play of a script books in each slot
    draw.py capacity film=NAME|trace=NAME [capacity=BYTES] [buffers=BYTES,..] [startup=SLOTS]
            [slot=UNITS] > capacity.svg
        how many streams a link can guarantee, unsmoothed and by the client's buffer
    draw.py served file=served.txt [capacity=BYTES] [films=NAME,..] [buffer=BYTES]
            [startup=SLOTS] [slot=UNITS] [form=table] > served.svg
        what `serve` printed at its end: plays, refusals, halts and bookings; or the table alone

The arguments have the meaning and the defaults that `vodserve --help` names. Files are those of
the current folder. With program=PATH that program is run. Each drawn line has its numbers in
`data-values`, so that a script can compare them.
"""

import sys

sys.dont_write_bytecode = True

from vodtools.capacity_picture import draw_capacity  # noqa: E402
from vodtools.day_picture import draw_day  # noqa: E402
from vodtools.plan_picture import draw_plan  # noqa: E402
from vodtools.program import ProgramError, find_program  # noqa: E402
from vodtools.served_picture import BadText, draw_served  # noqa: E402

CLIENT = ("buffer", "startup")
# Each picture's function, the arguments of which one is needed, and the others.
PICTURES = {
    "plan": (draw_plan, ("trace",), CLIENT),
    "day": (draw_day, ("script",), ("capacity", "journal", "slot")),
    "capacity": (draw_capacity, ("film", "trace"), ("capacity", "buffers", "startup", "slot")),
    "served": (draw_served, ("file",), ("capacity", "films", "form", "slot", *CLIENT)),
}
NUMBERS = ("buffer", "startup", "slot", "journal")


def fail(text, status=2):
    print(f"draw.py: {text}", file=sys.stderr)
    sys.exit(status)


def args_of(picture, given):
    """Returns the arguments by key; refuses those that the picture doesn't take."""
    _, needed, others = PICTURES[picture]
    args = {}
    for argument in given:
        key, found, value = argument.partition("=")
        if not found or not value or key in args:
            fail(f"'{argument}': an argument is key=value, each key once")
        if key not in (*needed, *others, "program"):
            fail(f"{picture} takes no '{key}'; it takes {', '.join((*needed, *others))}")
        if key in NUMBERS and not value.isdigit():
            fail(f"'{argument}': {key} is a number")
        args[key] = value
    if sum(key in args for key in needed) != 1:
        fail(f"{picture} needs {' or '.join(f'{key}=NAME' for key in needed)}")
    check_lists(picture, args)
    return args


def check_lists(picture, args):
    """Refuses capacities and buffers that aren't numbers, and other forms than the table."""
    parts = args.get("buffers", "1").split(",") + args.get("capacity", "1").split(",")
    numbers = [number for part in parts for number in part.split(":")]
    if not all(number.isdigit() for number in numbers):
        fail("capacity and buffers are numbers of bytes, buffers several with ',' between them")
    if picture == "capacity" and not args.get("capacity", "1").isdigit():
        fail("capacity is one number of bytes in a slot here, for example 50000")
    if args.get("form", "table") != "table":
        fail("form is 'table'; without it the picture is drawn")


def main():
    if len(sys.argv) > 1 and sys.argv[1] in ("-h", "--help"):
        print(__doc__, end="")
        return
    if len(sys.argv) < 2 or sys.argv[1] not in PICTURES:
        fail(f"draw.py draws {', '.join(PICTURES)}; 'draw.py --help' shows how")
    args = args_of(sys.argv[1], sys.argv[2:])
    try:
        program = find_program(args.pop("program", None))
        sys.stdout.write(PICTURES[sys.argv[1]][0](program, args))
    except (ProgramError, BadText) as error:
        fail(error, 1)
    except OSError as error:
        fail(f"{error.filename or 'output'}: {error.strerror}", 1)


if __name__ == "__main__":
    main()
