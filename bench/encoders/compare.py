#!/usr/bin/env python3
"""Compares what `vodserve scan` says of a film with what ffprobe says: compare.py FILM TEXT_OF_SCAN

Compared are the picture rate, the number of pictures, their kinds in the order of the file and in the order of
presentation, and each picture's first place and size. Prints one line; ends with status 1 where something differs.
"""

import re
import subprocess
import sys
from fractions import Fraction

# The pictures a second of each rate code (ISO/IEC 11172-2, 2.4.3.2).
RATES = [None] + [Fraction(*rate) for rate in
                  [(24000, 1001), (24, 1), (25, 1), (30000, 1001), (30, 1), (50, 1), (60000, 1001), (60, 1)]]
UNIT = re.compile(r"(\d+) ([IPBD]) show=(\d+) from=(\d+) head=(\d+) to=(\d+) slices=(\d+)( sequence)?( group)?")


class Differs(Exception):
    """What differs, in one line."""


def differ_at(what, ours, theirs):
    """Raises where two lists differ."""
    if ours == theirs:
        return
    place = next((k for k, (a, b) in enumerate(zip(ours, theirs)) if a != b), min(len(ours), len(theirs)))
    raise Differs(f"{what} differ at {place}: scan {ours[place:place + 4]}, ffprobe {theirs[place:place + 4]}")


def read_scan(path):
    """The rate code, and of each unit its kind, presentation number, first place and size."""
    with open(path, encoding="ascii") as text:
        lines = text.read().split("\n")
    head = re.fullmatch(r"film bytes=(\d+) rate=(\d) pictures=(\d+)", lines[0])
    if not head or lines[-2:] != ["end", ""]:
        raise Differs("the text of scan has no first or last line")
    units = []
    for place, line in enumerate(lines[1:-2]):
        unit = UNIT.fullmatch(line)
        if not unit or int(unit[1]) != place:
            raise Differs(f"the text of scan has a line that isn't unit {place}: {line}")
        units.append((unit[2], int(unit[3]), int(unit[4]), int(unit[6]) - int(unit[4])))
    if len(units) != int(head[3]):
        raise Differs("the text of scan has another number of units than its first line says")
    return int(head[2]), units


def ffprobe(film, entries):
    """The lines that ffprobe prints of these entries, each as a dictionary."""
    command = ["ffprobe", "-v", "error", "-f", "mpegvideo", "-show_entries", entries, "-of", "compact", film]
    told = subprocess.run(command, check=True, capture_output=True, text=True).stdout
    lines = [dict(word.split("=", 1) for word in line.split("|") if "=" in word) for line in told.splitlines()]
    return [line for line in lines if line]


def compare(film, text):
    """The line that says what agrees."""
    code, units = read_scan(text)
    rate = Fraction(ffprobe(film, "stream=r_frame_rate")[0]["r_frame_rate"])
    if RATES[code] != rate:
        raise Differs(f"scan has rate code {code}, ffprobe {rate} pictures a second")
    packets = [(int(packet["pos"]), int(packet["size"])) for packet in ffprobe(film, "packet=pos,size")]
    differ_at("places and sizes", [unit[2:] for unit in units], packets)
    # ffprobe shows decoded pictures in the order of presentation, each with the place of its bytes.
    frames = [frame for frame in ffprobe(film, "frame=pict_type,pkt_pos") if "pict_type" in frame]
    in_file = [frame["pict_type"] for frame in sorted(frames, key=lambda frame: int(frame["pkt_pos"]))]
    differ_at("kinds in the order of the file", [unit[0] for unit in units], in_file)
    shown = sorted(units, key=lambda unit: unit[1])
    differ_at("presentation numbers", [unit[1] for unit in shown], list(range(len(frames))))
    differ_at("pictures in the order of presentation", [(unit[0], unit[2]) for unit in shown],
              [(frame["pict_type"], int(frame["pkt_pos"])) for frame in frames])
    kinds = " ".join(f"{kind}={in_file.count(kind)}" for kind in "IPB")
    return f"{len(units)} pictures {kinds} rate {rate} a second"


def main():
    try:
        print("agrees:", compare(sys.argv[1], sys.argv[2]))
    except Differs as difference:
        print("DIFFERS:", difference)
        sys.exit(1)


main()
