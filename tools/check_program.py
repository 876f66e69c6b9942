#!/usr/bin/env python3
"""Runs the built program and checks what it does.

    tools/check_program.py [PROGRAM] [--only WORD] [--list]

PROGRAM is the built vodserve (default: crates/vodserve/out/vodserve of the repository in which this
script stands). The proofs hold for the logic above files and sockets. Here the program itself is
run: each exit status with its line, the commands' texts, `serve` and `watch` over loopback byte for
byte, peers that are silent, vanish or take nothing, a moment without file descriptors, and 250
sessions at once. What is expected was worked out by hand, or is computed by the plain programs of
bench/. It is never taken from the program's own output.

Needs Python 3.10 and Linux, no other package and no superuser; uses 127.0.0.1 and 127.0.0.2. Takes
about a minute and a half, and under three minutes on a busy machine: the checks that have to wait
run side by side. `--only WORD` runs the checks that have WORD in their names, `--list` prints the
names. Prints one line for each check that fails, with what was expected and what came, and at the
end `N passed, M failed`. Ends with status 1 where M isn't 0, and with 2 where there is no program.
"""

import argparse
import os
import resource
import signal
import sys
import tempfile
import threading
import time
from pathlib import Path

sys.dont_write_bytecode = True
TOP = Path(__file__).resolve().parent.parent
# In bench/ stand the client, the server's start, the model of a film's packets, the plain programs
# of `plan` and `fair`, and the crowd of sessions.
PARTS = ("tools/program_checks", "bench", "bench/transcript", "bench/load")
sys.path[:0] = [str(TOP / part) for part in PARTS]

import command_checks
import peer_checks
import session_checks
import watch_checks
from films import Film
from lab import Lab
from rtsp import Wrong
from samples import SMALL, TINY, generated_film, plain_film
from viewer import shown

# Seconds after which a check that is still running has failed: far more than any takes.
LONGEST = 600
# The films that are served. One of 6 MB, for 2 s, fills the buffers of a connection.
SERVED = {"small.mpg": SMALL, "tiny.mpg": TINY}
LARGE_PICTURES, LARGE_PICTURE = 50, 120_000
TOO_LARGE = 2 ** 30 + 1


def read_arguments():
    parser = argparse.ArgumentParser(
        description="Runs the built program and checks what it does.",
        epilog="The last line is `N passed, M failed`; status 1 where M isn't 0.")
    parser.add_argument(
        "program", nargs="?", default=TOP / "crates/vodserve/out/vodserve", type=Path,
        help="the built vodserve (default: that of this repository)")
    parser.add_argument(
        "--only", metavar="WORD", default="", help="run the checks with WORD in their names")
    parser.add_argument("--list", action="store_true", help="print the names of the checks")
    return parser.parse_args()


def chosen(word):
    """The checks with that word: those that wait, and those that don't."""
    slow = peer_checks.checks() + session_checks.checks() + watch_checks.checks()
    quick = command_checks.checks()
    return [[check for check in some if word in check.name] for some in (slow, quick)]


def make_lab(program, folder):
    """The folder with all files, and the models of the films that are served."""
    served = {
        **SERVED, "news.mpg": generated_film(1, 250),
        "colours.mpg": (TOP / "examples" / "colours.mpg").read_bytes(),
        "large.mpg": plain_film(LARGE_PICTURES, LARGE_PICTURE)}
    lab = Lab(program, folder, {**command_checks.FILES, **served})
    (lab.folder / "folder").mkdir()
    with open(lab.folder / "huge.mpg", "wb") as huge:
        huge.truncate(TOO_LARGE)
    lab.models = {name: Film(name, data) for name, data in served.items()}
    return lab


def outcome(check, lab):
    """What is wrong, in one line, or None."""
    try:
        check.call(lab)
    except Wrong as wrong:
        return str(wrong)
    except Exception as error:
        place = error.__traceback__
        while place.tb_next:
            place = place.tb_next
        where = f"{Path(place.tb_frame.f_code.co_filename).name}:{place.tb_lineno}"
        return f"expected an answer, got {type(error).__name__} {shown(str(error))} ({where})"
    return None


class Results:
    """What came out of each check; printed as it comes, until all is counted."""

    def __init__(self, checks):
        self.lock = threading.Lock()
        self.running = set(checks)
        self.passed = self.failed = 0

    def add(self, check, wrong):
        with self.lock:
            if check not in self.running:
                return
            self.running.discard(check)
            if wrong is None:
                self.passed += 1
            else:
                self.failed += 1
                print(f"FAILED {check.name}: " + " ".join(wrong.split("\n")), flush=True)


def run(slow, quick, lab, results):
    """Runs the checks that wait side by side, one thread each, and the others beside them."""

    def run_all(checks):
        for check in checks:
            results.add(check, outcome(check, lab))

    lanes = os.cpu_count() or 2
    parts = [[check] for check in slow] + [quick[lane::lanes] for lane in range(lanes)]
    # A thread that hangs is left behind at the end.
    threads = [threading.Thread(target=run_all, args=(part,), daemon=True) for part in parts]
    for thread in threads:
        thread.start()
    end = time.monotonic() + LONGEST
    for thread in threads:
        thread.join(max(end - time.monotonic(), 0))
    for check in list(results.running):
        results.add(check, f"expected an end, it still runs after {LONGEST} s")


def allow_many_files():
    """The clients of 250 sessions are all in this process."""
    soft, hard = resource.getrlimit(resource.RLIMIT_NOFILE)
    if soft < 4096:
        most = 4096 if hard == resource.RLIM_INFINITY else min(hard, 4096)
        resource.setrlimit(resource.RLIMIT_NOFILE, (most, hard))


def main():
    arguments = read_arguments()
    slow, quick = chosen(arguments.only)
    if arguments.list:
        print("\n".join(check.name for check in slow + quick))
        return 0
    program = arguments.program.resolve()
    if not os.access(program, os.X_OK):
        print(f"check_program.py: no program {program}", file=sys.stderr)
        print("0 passed, 1 failed")
        return 2
    # Ended by a signal, it stops its servers too.
    signal.signal(signal.SIGTERM, lambda *_: sys.exit(143))
    allow_many_files()
    results = Results(slow + quick)
    with tempfile.TemporaryDirectory(ignore_cleanup_errors=True) as folder:
        lab = make_lab(program, folder)
        try:
            run(slow, quick, lab, results)
        finally:
            lab.stop_servers()
    print(f"{results.passed} passed, {results.failed} failed", flush=True)
    return 1 if results.failed else 0


if __name__ == "__main__":
    sys.exit(main())
