#!/usr/bin/env python3
"""Time and memory from the start to the first DESCRIBE answered: start.py PROGRAM FOLDER FILM PART COPIES ROUNDS

FILM is PART so many times over. In each round the server is started with FILM and asked, again and again, until
it answers a DESCRIBE; and `cat FILM | wc -c` is timed. Prints the best of each, and the peak memory beside the film's
size. PART is played once before, to count its frames.
"""

import subprocess
import sys
import time
from pathlib import Path

sys.path.insert(0, str(Path(__file__).resolve().parent.parent))
import rtsp
import serving


def frames_of(program, folder, part):
    """How many frames and reports the server sends of a film."""
    size = (folder / part).stat().st_size
    with serving.Server(program, folder, [part], capacity=10**9, workers=1, connections=1) as server:
        media = rtsp.Media()
        with rtsp.Client(server.port, part) as client:
            client.set_up()
            client.must("PLAY")
            rtsp.read_film(client, media, size)
            client.must("TEARDOWN")
    return media.packets + media.reports


def first_answer(program, folder, film):
    """Seconds until a DESCRIBE is answered, of processor time too, and the peak memory in KiB by then."""
    begun = time.monotonic()
    with serving.Server(program, folder, [film], patience=600, workers=1, connections=1) as server:
        listening = time.monotonic() - begun
        with rtsp.Client(server.port, film) as client:
            client.must("DESCRIBE")
            took = time.monotonic() - begun
        used = server.processor_seconds()
        peak = server.memory()[1]
        server.finish()
    return took, listening, used, peak


def cat_and_count(folder, film):
    begun = time.monotonic()
    subprocess.run(f"cat {film} | wc -c", shell=True, cwd=folder, check=True, stdout=subprocess.DEVNULL)
    return time.monotonic() - begun


def main():
    program, folder, film, part, copies, rounds = sys.argv[1:]
    folder = Path(folder)
    size = (folder / film).stat().st_size
    frames = frames_of(program, folder, part) * int(copies)
    answers, cats = [], []
    for _ in range(int(rounds)):
        answers.append(first_answer(program, folder, film))
        cats.append(cat_and_count(folder, film))
    took, listening, used, _ = min(answers)
    peak = max(peak for *_, peak in answers)
    over = peak * 1024 - size
    print(f"film of {size:,} bytes, about {frames:,} frames and reports; best of {rounds}")
    print(f"  first DESCRIBE answered after {took:.2f} s, port open after {listening:.2f} s, processor time {used:.2f} s")
    print(f"  cat and wc {min(cats):.2f} s; ratio {took / min(cats):.2f}; {size / 1e6 / took:.0f} MB a second")
    print(f"  peak memory {peak:,} KiB: the film and {over:,} bytes, {over / frames:.1f} a frame")


main()
