#!/usr/bin/env python3
"""Sees that the checks of check_program.py can fail: try_checks.py [PROGRAM]

For each fault, a program that has it (wrong_program.py) is given to the checks that must notice.
Prints a line for each fault, and at the end `N noticed, M missed`. Ends with status 1 if M isn't 0,
and with 2 if there is no program. PROGRAM is the right program (default: that of this repository).
Takes about six minutes.
"""

import argparse
import os
import re
import subprocess
import sys
from concurrent.futures import ThreadPoolExecutor
from pathlib import Path

TOP = Path(__file__).resolve().parent.parent.parent
WRONG = TOP / "tools/program_checks/wrong_program.py"
# A fault, the checks that are run (a word of their names), and how many of them must fail.
FAULTS = [
    ("none at all", "plan trace", 0), ("none at all", "replies of an ordinary", 0),
    ("none at all", "watch: a film of the server", 0), ("none at all", "a pause and a part", 0),
    ("none at all in a shortage", "a moment without", 0),
    ("none at all in a shortage", "idle workers", 0),
    ("status is 1", "plan trace", "all"), ("status is 1", "no meaning", "all"),
    ("nothing said of errors", "no meaning", "all"),
    ("nothing said of errors", "folder", "all"),
    ("a byte of the output differs", "make kind", 3),
    ("a byte of the output differs", "`scan film=small", "all"),
    ("failed writes pass", "can't be written", 2),
    ("a byte of the media differs", "a pause and a part", 1),
    ("a byte of the media differs", "watch: a film of the server", 1),
    ("a byte of the media differs", "250 sessions", 1),
    ("media are dropped", "reads late", 1),
    ("session ids are always the same", "identities", 1),
    ("a reply says something else", "replies of an ordinary", 1),
    ("it listens everywhere", "bind", 1),
    ("connections are never ended", "a silent peer", 1),
    ("connections are never ended", "a dripping peer", 1),
    ("connections are never ended", "line ends", 1),
    ("a worker is lost by each peer that leaves", "a peer that vanishes", 1),
    ("a worker is lost by each peer that leaves", "four silent", 1),
    ("silence of 30 s ends a connection", "minute of silence", "all"),
    ("a shortage ends it", "a moment without", 1),
    ("a shortage ends connections", "a moment without", 1),
    ("a shortage ends it", "idle workers", 1),
    ("a shortage ends connections", "idle workers", 1),
    ("a shortage ends what was accepted", "idle workers", 1),
]
LINE = re.compile(r"(\d+) passed, (\d+) failed")


def tried(program, fault, word):
    """How many of the checks with that word passed and failed, and the first that failed."""
    ran = subprocess.run(
        [sys.executable, TOP / "tools/check_program.py", WRONG, "--only", word],
        env={**os.environ, "WRONG": fault, "RIGHT": program}, capture_output=True, text=True)
    passed, failed = map(int, LINE.fullmatch(ran.stdout.strip().split("\n")[-1]).groups())
    return passed, failed, ran.returncode, ran.stdout.split("\n")[0][:160]


def find_program():
    """Returns the right program, as the arguments name it."""
    parser = argparse.ArgumentParser(
        description=__doc__, formatter_class=argparse.RawDescriptionHelpFormatter)
    own = TOP / "crates/vodserve/out/vodserve"
    parser.add_argument("program", nargs="?", default=own, type=Path)
    program = parser.parse_args().program.resolve()
    if not os.access(program, os.X_OK):
        parser.error(f"there is no program {program}")
    return str(program)


def main():
    program = find_program()
    missed = 0
    with ThreadPoolExecutor(4) as pool:
        jobs = [(row, pool.submit(tried, program, *row[:2])) for row in FAULTS]
        for (fault, word, wanted), job in jobs:
            passed, failed, status, first = job.result()
            wanted = passed + failed if wanted == "all" else wanted
            good = failed == wanted and passed + failed > 0 and status == bool(failed)
            missed += not good
            print(
                f"{'noticed' if good else 'MISSED'}: {fault}: of the checks '{word}' {failed} fail,"
                f" {passed} pass. {first}", flush=True)
    print(f"{len(FAULTS) - missed} noticed, {missed} missed")
    return 1 if missed else 0


if __name__ == "__main__":
    sys.exit(main())
