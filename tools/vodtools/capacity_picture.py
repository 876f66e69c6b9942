"""Draws how many streams of a film a link can guarantee: unsmoothed, and by the client's buffer.

All numbers come from `plan`. A stream is guaranteed if it fits beside the others however they
meet, so a link of C bytes in a slot guarantees C divided by the peak of a slot. The peak of the
unsmoothed film is the least buffer that `plan` names when it refuses a buffer of one byte: the
bytes that are used in one slot.
"""

from vodtools.panels import svg_of_parts
from vodtools.program import (
    ProgramError,
    UNITS_PER_SECOND,
    mbit_per_second,
    peak_of,
    run,
    segments_of,
)

BUFFERS = "16384,65536,1048576"
WIDTH, LEFT, RIGHT, TOP, ROW, BAR = 900, 226, 196, 92, 54, 32
FACE = 'font-family="sans-serif"'
GREY, BLUE, INK, SOFT = "#9aa3ad", "#2f6fb5", "#1d2733", "#5b6775"


def peak_with(program, args, buffer):
    """Returns the most bytes that a slot of the plan needs, and whether the buffer is large enough.

    If it isn't, the bytes are those of the least buffer that is.
    """
    try:
        return peak_of(segments_of(run(program, "plan", {**args, "buffer": buffer}))), True
    except ProgramError as error:
        parts = str(error).split()
        if len(parts) == 6 and parts[2] == "BufferTooSmall":
            return int(parts[5]), False
        raise


def size_of(count):
    """Returns a number of bytes in KiB, MiB or GiB."""
    for name, unit in (("GiB", 1 << 30), ("MiB", 1 << 20), ("KiB", 1 << 10)):
        if count >= unit:
            return f"{count / unit:.4g} {name}"
    return f"{count:,} bytes"


def rows_of(program, args, capacity, buffers):
    """Returns for each bar its name, the peak of a slot in bytes, and the number of streams.

    A buffer that is too small for the film has no peak and no streams.
    """
    peak, _ = peak_with(program, args, 1)
    rows = [("unsmoothed", peak, capacity // max(1, peak))]
    for buffer in buffers:
        peak, is_enough = peak_with(program, args, buffer)
        name = f"{size_of(buffer)} buffer"
        rows.append((name, peak, capacity // max(1, peak)) if is_enough else (name, 0, 0))
    return rows


def text(x, y, size, color, args, more=""):
    return f'<text x="{x}" y="{y}" {FACE} font-size="{size}" fill="{color}" {more}>{args}</text>'


def bar(place, row, most, slot):
    """Returns the parts of one bar: its name, the bar, the number of streams, and the peak."""
    name, peak, streams = row
    top = TOP + place * ROW
    width = round((WIDTH - LEFT - RIGHT) * streams / max(1, most), 1)
    middle = top + BAR / 2
    count = f"{streams:,} stream" + ("" if streams == 1 else "s")
    rate = f"at most {mbit_per_second(peak, slot):.2f} Mbit/s each"
    if not peak:
        count, rate = "no stream", "too small for this film"
    return [
        text(LEFT - 12, middle + 6, 17, INK, name, 'text-anchor="end"'),
        f'<rect id="bar{place}" data-values="{peak} {streams}" x="{LEFT}" y="{top}"'
        f' width="{width}" height="{BAR}" rx="3" fill="{BLUE if place else GREY}"/>',
        text(LEFT + width + 10, middle, 18, INK, count, 'font-weight="600"'),
        text(LEFT + width + 10, middle + 16, 13, SOFT, rate),
    ]


def draw_capacity(program, args):
    capacity = int(args.pop("capacity", "50000"))
    buffers = [int(it) for it in args.pop("buffers", BUFFERS).split(",")]
    slot = int(args.get("slot", "14400"))
    rows = rows_of(program, args, capacity, buffers)
    film = args.get("film") or args["trace"]
    link = f"{mbit_per_second(capacity, slot):.4g} Mbit/s"
    delay = int(args.get("startup", "25")) * slot / UNITS_PER_SECOND
    parts = [
        text(24, 38, 22, INK, f"Streams that a link of {link} can guarantee", 'font-weight="600"'),
        text(24, 64, 15, SOFT, f"{film}, by the client's buffer; start delay {delay:g} s"),
    ]
    most = max(streams for _, _, streams in rows)
    for place, row in enumerate(rows):
        parts += bar(place, row, most, slot)
    return svg_of_parts(WIDTH, TOP + len(rows) * ROW + 8, parts)
