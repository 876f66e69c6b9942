#!/usr/bin/env python3
"""Many clients that do whatever clients do, for long: soak.py PROGRAM FOLDER MINUTES [SEED]

A first part of the time, a fifth but at least five minutes or half of it, is for the server to come
to its usual size: in the first minutes it grows by more than its records. Then all clients leave,
and its memory is taken. The same clients go on for the rest. What the memory has grown by is
compared with what they asked (memory.py). At last the connections that the server has left are used
up, so that it ends and prints its journal. The sessions are drawn from SEED (default 1), so the
same ones come again, though not at the same times.
"""

import math
import resource
import sys
import threading
import time
from pathlib import Path

sys.dont_write_bytecode = True
BENCH = Path(__file__).resolve().parent.parent
sys.path[:0] = [str(BENCH), str(BENCH / "transcript"), str(BENCH.parent / "tools/program_checks")]

import memory
from clients import LOOKED, PATIENCE, Client, Soak
from films import Film
from rtsp import Ended, TooLate, Wrong
from samples import generated_film, plain_film
from serving import (
    Journal, NotServed, Server, descriptors, service_environment, told_environment)
from viewer import OK, Wire, want

CLIENTS = 60
# Some more than clients, for the looks at the end and for connections that wait for their end.
WORKERS = 64
# Bytes of a slot of 40 ms: some plays don't fit.
CAPACITY = 180_000
JOURNAL = 1_048_576
# Each so many seconds the server is short of file descriptors for a moment.
SHORT_EACH, SHORT_FOR = 40, 3
# Minutes in which the server comes to its usual size.
FIRST_PART = 5
# Seconds for all sessions to end: a film of 10 s with pauses, or a peer that is waited for.
LAST_SESSIONS = 200
# Seconds in which nothing may be booked at the end, longer than any film and its start delay.
EMPTY_FOR = 14
MOST_OFF = 0.05
# The server ends after so many connections of each worker: about twice as many as are used, and for
# a short time some more. Seconds to use up the others.
MINUTE_OF_WORKER, MORE_OF_WORKER, LAST_CONNECTIONS = 16, 40, 400


def make_films(folder):
    """The films, as files and as models: 10 s of a real encoder, 10 and 2 s generated ones, and one
    whose bytes fill the buffers of a connection."""
    films = {
        "colours.mpg": (BENCH.parent / "examples" / "colours.mpg").read_bytes(),
        "news.mpg": generated_film(1, 250), "short.mpg": generated_film(2, 50),
        "large.mpg": plain_film(50, 120_000)}
    for name, data in films.items():
        (folder / name).write_bytes(data)
    return {name: Film(name, data) for name, data in films.items()}


def shortages(soak):
    """Takes the server's file descriptors away now and then; what it has open stays. Clients may
    have to wait for it, and none of them is ended."""
    pid = soak.server.child.pid
    soft, hard = resource.prlimit(pid, resource.RLIMIT_NOFILE)
    while not soak.stopping.wait(SHORT_EACH):
        taken = descriptors(pid)
        lowest = next(number for number in range(len(taken) + 1) if number not in taken)
        resource.prlimit(pid, resource.RLIMIT_NOFILE, (lowest, hard))
        time.sleep(SHORT_FOR)
        resource.prlimit(pid, resource.RLIMIT_NOFILE, (soft, hard))
        soak.shortages += 1


def go_on(soak, clients, seconds):
    """Lets the clients go on for so long, until each has ended its session."""
    soak.stopping.clear()
    targets = [lambda: shortages(soak), *(client.run for client in clients)]
    threads = [threading.Thread(target=target, daemon=True) for target in targets]
    for thread in threads:
        thread.start()
    end = time.monotonic() + seconds
    while time.monotonic() < end and soak.server.is_running():
        time.sleep(0.5)
    soak.stopping.set()
    end = time.monotonic() + LAST_SESSIONS
    for thread in threads:
        thread.join(max(end - time.monotonic(), 0))
    late = sum(thread.is_alive() for thread in threads)
    if late:
        soak.fault(f"{late} sessions go on {LAST_SESSIONS} s after all should end")


def settle(soak, idle):
    """Waits until the server has no more descriptors than as it began; its memory then."""
    pid = soak.server.child.pid
    end = time.monotonic() + PATIENCE
    while len(descriptors(pid)) > idle and time.monotonic() < end:
        time.sleep(0.5)
    more = len(descriptors(pid)) - idle
    if more > 0:
        soak.fault(f"the server has {more} descriptors more than as it began, after {PATIENCE} s")
    time.sleep(1)
    return memory.resident(pid)


def is_empty(soak):
    """Looks at what is booked, slot by slot: nothing, for longer than any play would last."""
    looks = 0
    with Wire(soak.server.port, patience=PATIENCE) as wire:
        end = time.monotonic() + EMPTY_FOR
        while time.monotonic() < end:
            reply = wire.ask("GET_PARAMETER", "rtsp://h/short.mpg", body="x-Booked")
            found = LOOKED.search(reply)
            if not found or int(found[3]):
                soak.fault(f"expected nothing booked, got {' '.join(reply.split())}")
                return looks
            looks += 1
            time.sleep(0.02)
    return looks


def answer_all(soak):
    """Connections to all workers side by side, each of which must be answered; how many are."""
    wires = []
    try:
        for _ in range(WORKERS):
            wires.append(Wire(soak.server.port, patience=PATIENCE))
            want("OPTIONS", OK[:-2], wires[-1].ask("OPTIONS", "*").split("\r\n")[0])
    except (Wrong, TooLate, Ended, OSError) as error:
        soak.fault(f"of {WORKERS} workers {len(wires) - 1} answer: {error}")
    finally:
        for wire in wires:
            wire.socket.close()
    return len(wires)


def judge_journal(soak, clients, looks):
    """Whether the server ends once its connections are used up, and its journal has a halt for each
    play that was admitted, and an entry for each answer that the clients had."""
    try:
        text, knocks = soak.server.finish(LAST_CONNECTIONS)
        journal = Journal(text)
    except NotServed as error:
        soak.fault(f"expected the server's journal: {error}")
        return
    counts, _ = memory.sum_of([client.account for client in clients])
    reckoned = memory.entries(counts) + looks
    print(
        f"journal: {journal.entries:,} entries, {reckoned:,} reckoned; {len(journal.admitted):,}"
        f" plays admitted, {len(set(journal.halts)):,} of them halted, {journal.refused:,} refused;"
        f" {journal.connections:,} connections, the last {knocks:,} of them unused")
    for fault in journal.faults():
        soak.fault(f"journal: {fault}")
    came = journal.entries, len(journal.admitted), journal.refused
    if came != (reckoned, counts["admitted"], counts["refused"]):
        soak.fault(f"the journal has {came} entries, plays and refusals, the clients had"
                   f" {(reckoned, counts['admitted'], counts['refused'])}")


def told(counts):
    return ", ".join(f"{number:,} {name}" for name, number in counts.items())


def judge_memory(soak, before, after, clients):
    """Whether the memory is what it was, and what was asked since."""
    (counts, kept), resident = before
    now, all_kept = memory.sum_of([client.account for client in clients])
    grown = {name: now[name] - counts[name] for name in now}
    reckoned = resident + all_kept - kept
    off = (after - reckoned) / reckoned
    print(f"asked since the first part: {told(grown)}")
    print(
        f"memory: {resident:,} bytes after the first part, {after:,} at the end;"
        f" {after - resident:,} more, {all_kept - kept:,} reckoned for"
        f" {memory.entries(grown):,} entries, notes and offers; {off:+.1%} of the whole")
    if abs(off) > MOST_OFF:
        soak.fault(f"the memory is {off:+.1%} off what is reckoned, over {MOST_OFF:.0%}")


def soak_for(soak, clients, minutes):
    """The two parts, and what has to hold at the end."""
    # All workers are there once so many connections are answered side by side.
    answer_all(soak)
    time.sleep(2)
    idle = len(descriptors(soak.server.child.pid))
    first = max(60 * minutes / 5, min(60 * FIRST_PART, 60 * minutes / 2))
    go_on(soak, clients, first)
    resident = settle(soak, idle)
    before = memory.sum_of([client.account for client in clients]), resident
    print(f"first part: {told(before[0][0])}; {resident:,} bytes", flush=True)
    go_on(soak, clients, 60 * minutes - first)
    if not soak.server.is_running():
        soak.fault(f"the server ended: {soak.server.errors()}")
        return
    after = settle(soak, idle)
    judge_memory(soak, before, after, clients)
    print(f"{answer_all(soak)} connections side by side answered, of {WORKERS} workers")
    looks = is_empty(soak)
    print(f"nothing booked in {looks:,} looks over {EMPTY_FOR} s", flush=True)
    used = soak.server.processor_seconds()
    judge_journal(soak, clients, looks)
    print(f"server {used:.0f} s of processor time")


def main():
    program, folder, minutes = sys.argv[1], Path(sys.argv[2]), float(sys.argv[3])
    seed = int(sys.argv[4]) if len(sys.argv) > 4 else 1
    films = make_films(folder)
    connections = MORE_OF_WORKER + math.ceil(MINUTE_OF_WORKER * minutes)
    words = {
        "capacity": CAPACITY, "journal": JOURNAL, "workers": WORKERS, "connections": connections}
    print(f"environment: {told_environment()}", flush=True)
    begun = time.monotonic()
    with Server(program, folder, films, environment=service_environment(), **words) as server:
        soak = Soak(server, films)
        clients = [Client(soak, number, seed) for number in range(CLIENTS)]
        try:
            soak_for(soak, clients, minutes)
        finally:
            print_total(soak, begun)
    return 1 if soak.faults else 0


def print_total(soak, begun):
    print(f"{soak.sessions:,} sessions: " + told(soak.kinds))
    print(
        f"{soak.media:,} bytes of media compared, {soak.shortages} shortages of descriptors,"
        f" {time.monotonic() - begun:.0f} s")
    print("all as it should be" if not soak.faults else f"{len(soak.faults)} faults")


if __name__ == "__main__":
    sys.exit(main())
