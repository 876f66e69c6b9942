#!/bin/sh
# Two programs on the same inputs: bench/same.sh OLD NEW [COUNT]
#
# OLD and NEW are two built `vodserve`. COUNT (default 400) traces, films and scripts each are drawn
# and given to both: traces to `plan` and `check` (zeros, equal, falling and rising sizes, bursts,
# zeros in front, all kinds of white space, a few bytes that are refused), films to `scan` (those of
# grammar.py, and generated ones as film and as system stream), scripts to `day` (those of days.py).
# Compared are status, output and error stream. Ends with status 1 where one differs. Needs python3.
set -eu
here=$(cd "$(dirname "$0")" && pwd)
. "$here/setup.sh"
need python3
[ $# -ge 2 ] || { echo "same.sh: name two programs"; exit 2; }
find_program "$1"
old=$program
find_program "$2"
enter_folder
PYTHONPATH="$here" PYTHONDONTWRITEBYTECODE=1 python3 - "$old" "$program" "${3:-400}" <<'END'
import random
import subprocess
import sys

import days
import grammar

OLD, NEW, COUNT = sys.argv[1], sys.argv[2], int(sys.argv[3])
BLANKS = [" ", "\n", "\n", "\t", "\r\n", "  \n"]
WRONG = [b"x", b"-1", b"\0", b"4398046511105", b"99999999999999"]
draw = random.Random(7)


def put(name, data):
    with open(name, "wb") as file:
        file.write(data)


def run(program, words):
    ran = subprocess.run([program, *words], capture_output=True)
    return ran.returncode, ran.stdout, ran.stderr


class Count:
    """How many runs of a command were compared, accepted and different."""

    def __init__(self, name):
        self.name, self.runs, self.accepted, self.different = name, 0, 0, 0

    def compare(self, *words):
        old, new = run(OLD, words), run(NEW, words)
        self.runs += 1
        self.accepted += old[0] == 0
        if old != new:
            self.different += 1
            print("differs:", " ".join(words), old[0], old[2], new[0], new[2])
        return old

    def end(self):
        told = f"{self.runs} runs, {self.accepted} with status 0, {self.different} different"
        print(f"{self.name}: {told}")
        return self.different


def sizes():
    most = draw.choice([1, 9, 2000, 1 << 20, 1 << 40])
    count = draw.choice([1, 2, 3, 10, 100, 1000])
    return draw.choice([
        lambda: [0] * count,
        lambda: [most] * count,
        lambda: sorted((draw.randrange(most + 1) for _ in range(count)), reverse=True),
        lambda: sorted(draw.randrange(most + 1) for _ in range(count)),
        lambda: [draw.randrange(most + 1) for _ in range(count)],
        lambda: [draw.choice([0, 0, 0, 7]) * draw.randrange(most // 8 + 1) for _ in range(count)],
    ])()


def plans():
    told = Count("plan and check")
    for _ in range(COUNT):
        numbers = sizes()
        text = b""
        for size in numbers:
            zeros = "0" * draw.choice([0, 0, 0, 0, 1, 11])
            text += f"{zeros}{size}{draw.choice(BLANKS)}".encode()
        if draw.randrange(12) == 0:
            at = draw.randrange(len(text))
            text = text[:at] + draw.choice(WRONG) + text[at:]
        put("t", text)
        largest = max(max(numbers), 1)
        buffer = draw.choice([largest, largest + 7, 2 * largest, 9 * largest, 1 << 42, max(1, largest - 1)])
        words = ["trace=t", f"buffer={min(buffer, 1 << 42)}", f"startup={draw.choice([0, 1, 5, 25])}"]
        made = told.compare("plan", *words)
        if made[0] == 0:
            put("c", made[1])
            told.compare("check", *words, "cert=c")
            put("c", made[1].replace(b"1", b"2", 1))
            told.compare("check", *words, "cert=c")
    return told.end()


def scans():
    told = Count("scan")
    for film in grammar.films(COUNT):
        put("f", film)
        told.compare("scan", "film=f")
    for seed in range(COUNT // 8):
        for kind in ("film", "system"):
            film = run(OLD, ["make", f"kind={kind}", f"seed={seed}", f"pictures={1 + draw.randrange(99)}"])[1]
            put("f", film)
            told.compare("scan", "film=f")
            # One byte lost or another one, somewhere.
            at = draw.randrange(len(film))
            put("f", film[:at] + draw.choice([b"", b"\0", b"\1"]) + film[at + 1:])
            told.compare("scan", "film=f")
    # Over 64 KiB of text and of film, and over 20,000 units.
    for seed, pictures in ((1, 1500), (2, 20000)):
        put("f", run(OLD, ["make", "kind=film", f"seed={seed}", f"pictures={pictures}"])[1])
        told.compare("scan", "film=f")
    return told.end()


def scripts():
    told = Count("day")
    names = []
    for number in range(6):
        pieces = [draw.choice([0, 1, 5, draw.randrange(2000)]) for _ in range(draw.randrange(1, 30))]
        put(f"t{number}", "\n".join(map(str, pieces)).encode())
        names.append(("trace", f"t{number}", max(pieces) or 1))
    for number in range(3):
        film = run(OLD, ["make", "kind=film", f"seed={number}", f"pictures={5 + 8 * number}"])[1]
        put(f"f{number}", film)
        names.append(("film", f"f{number}", max(days.film_source(film).sizes)))
    put("x", b"1 x")
    put("empty", b"")
    for _ in range(COUNT):
        lines, _, _ = days.drawn(draw, names)
        put("s.txt", (draw.choice(["\n", "\r\n"]).join(lines) + draw.choice(["\n", "\n", "", "\r"])).encode())
        peak = draw.choice([400, 1500, 4000, 50000])
        told.compare(
            "day", "script=s.txt", f"capacity=0:{peak},{draw.randrange(1, 40)}:{draw.choice([0, peak // 2, 2 * peak])}",
            f"journal={draw.choice([2, 3, 6, 20, 65536])}", f"slot={draw.choice([14400, 14400, 7200, 20000])}")
    return told.end()


sys.exit(1 if plans() + scans() + scripts() else 0)
END
