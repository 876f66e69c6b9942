#!/usr/bin/env python3
"""Instructions that `serve` itself takes for a wake: count.py PROGRAM FOLDER

FOLDER has film.mpg with 25 pictures a second. Under valgrind's callgrind one session leaves right
after its PLAY, and another plays the film to its end; the difference, divided by the film's slots,
is what a wake takes, without the kernel. (The plan, 0.1 of it, is made in both and cancels out; the
text of the journal's end has some lines more.) Prints the sum and the functions that have most of
it.
"""

import re
import subprocess
import sys
import time
from pathlib import Path

sys.dont_write_bytecode = True
BENCH = Path(__file__).resolve().parent.parent
sys.path[:0] = [str(BENCH), str(BENCH / "transcript")]

import serving
from days import curves, plan
from films import Film
from viewer import Viewer

NAME = "film.mpg"
LINE = re.compile(r"^ *([0-9,]+) +\( *[0-9.]+%\) +(?:[^:\s]*:)?(\S.*?)(?: \[[^\]]*\])?$")
SHOWN = 8


def counted(program, folder, film, plays):
    """The instructions of each function in a server of one connection."""
    port, out = serving.free_port(), folder / "callgrind.out"
    words = ["valgrind", "--tool=callgrind", f"--callgrind-out-file={out}", program, "serve"]
    words += [f"film={NAME}", f"port={port}", "workers=1", "connections=1", "capacity=1000000000"]
    child = subprocess.Popen(
        words, cwd=folder, stdout=subprocess.DEVNULL, stderr=subprocess.DEVNULL)
    try:
        while not serving.is_listening(port):
            if child.poll() is not None:
                raise serving.NotServed(f"valgrind ended with {child.returncode}")
            time.sleep(0.05)
        with Viewer(port, film) as viewer:
            viewer.start(units=(0, len(film.units)))
            if plays:
                viewer.play()
            viewer.tear_down()
        child.wait(60)
    finally:
        child.kill()
    text = subprocess.run(
        ["callgrind_annotate", "--threshold=100", out], check=True, capture_output=True, text=True)
    counts = {}
    for found in filter(None, map(LINE.match, text.stdout.split("\n"))):
        counts[found[2]] = counts.get(found[2], 0) + int(found[1].replace(",", ""))
    return counts


def main():
    program, folder = sys.argv[1], Path(sys.argv[2])
    film = Film(NAME, (folder / NAME).read_bytes())
    slots = len(plan(0, *curves(film.sizes, film.time, 14_400, 1_048_576, 25, 0, 0)))
    none, whole = (counted(program, folder, film, plays) for plays in (False, True))
    total = (whole.pop("PROGRAM TOTALS") - none.pop("PROGRAM TOTALS")) / slots
    wake = {name: (count - none.get(name, 0)) / slots for name, count in whole.items()}
    most = sorted(wake, key=wake.get, reverse=True)[:SHOWN]
    parts = ", ".join(f"{name.split('::<')[0]} {wake[name]:,.0f}" for name in most)
    print(f"instructions a wake, {slots} wakes of one session: {total:,.0f}: {parts}")


if __name__ == "__main__":
    main()
