#!/usr/bin/env python3
"""What an ended connection with one PLAY leaves in the server: ended.py PROGRAM FOLDER

Connections set the film up, play it and leave at once: SETUP, PLAY, TEARDOWN. After FIRST of them
the server's own memory (RssAnon) is taken, and again after MORE. The difference is compared with
what the connections' parts hold (soak/memory.py): for one worker and for 32 with one connection
after another, for two buffers, and for 60 clients at once. A worker's list of reports doubles at
4,096 and 8,192 connections (one worker), or at 128 and 256 (32 of them): none of that falls between
the two moments, so a report counts as it is. (60 clients give the workers unequal numbers, so some
lists double: at most 0.1 KB a connection.)
"""

import re
import subprocess
import sys
import time
from concurrent.futures import ThreadPoolExecutor
from pathlib import Path

sys.dont_write_bytecode = True
BENCH = Path(__file__).resolve().parent.parent
sys.path[:0] = [str(BENCH), str(BENCH / "transcript"), str(BENCH / "soak")]

import memory
from serving import Server, service_environment, told_environment
from viewer import OK, Wire, want

FIRST, MORE = 4_200, 3_800
REPORT = 112
# Workers, clients at once, and the buffer in bytes, for a plan of six segments or of nine.
SCENES = (
    (1, 1, 1_048_576), (1, 1, 16_384), (32, 1, 1_048_576), (32, 1, 16_384), (64, 60, 1_048_576))
DELAY = 25
FILM = "colours.mpg"
TRANSPORT = "Transport: RTP/AVP/TCP;unicast;interleaved=0-1"


def play(server, buffer, count):
    """So many connections, one after another, each with one PLAY that is granted."""
    url = f"rtsp://127.0.0.1:{server.port}/{FILM}"
    for _ in range(count):
        with Wire(server.port) as wire:
            reply = wire.ask(
                "SETUP", url + "/video", TRANSPORT, f"x-Buffer: {buffer}", f"x-Startup: {DELAY}")
            session = re.search("Session: [0-9a-f]+", reply)[0]
            for method in ("PLAY", "TEARDOWN"):
                want(method, OK, wire.ask(method, url, session)[:len(OK)])
            wire.end()


def segments_of(program, folder, buffer):
    """How many segments the plan of the film has."""
    words = [program, "plan", f"film={FILM}", f"buffer={buffer}", f"startup={DELAY}"]
    ran = subprocess.run(words, cwd=folder, check=True, capture_output=True, text=True)
    return ran.stdout.count("\nsegment ")


def parts(segments):
    """The bytes of each part that a connection with one play leaves."""
    return {
        "journal": 2 * memory.ENTRY, "plan in the journal": memory.planned(segments),
        "report": REPORT, "receipts": memory.piece(2 * memory.RECEIPT),
        "note of the play": memory.piece(memory.PLAY),
        "plan in the note": memory.copied_plan(segments)}


def play_at_once(server, clients, buffer, count):
    """The same connections by so many clients side by side."""
    each = [count // clients] * clients
    with ThreadPoolExecutor(clients) as pool:
        list(pool.map(lambda share: play(server, buffer, share), each))
    return sum(each)


def grown(program, folder, workers, clients, buffer):
    """The bytes by which a connection makes the server's memory grow."""
    words = {"capacity": 10 ** 9, "workers": workers}
    with Server(program, folder, [FILM], environment=service_environment(), **words) as server:
        play_at_once(server, clients, buffer, FIRST)
        time.sleep(0.5)
        before = memory.resident(server.child.pid)
        more = play_at_once(server, clients, buffer, MORE)
        time.sleep(0.5)
        return (memory.resident(server.child.pid) - before) / more


def main():
    program, folder = sys.argv[1], Path(sys.argv[2])
    print(f"environment: {told_environment()}", flush=True)
    for workers, clients, buffer in SCENES:
        left = grown(program, folder, workers, clients, buffer)
        held = parts(segments_of(program, folder, buffer))
        told = ", ".join(f"{what} {size}" for what, size in held.items())
        print(
            f"{workers} workers, {clients} clients at once, buffer {buffer:,}: {left:.0f} bytes a"
            f" connection, its parts hold {sum(held.values())} ({left / sum(held.values()):.2f}):"
            f" {told}", flush=True)


if __name__ == "__main__":
    main()
