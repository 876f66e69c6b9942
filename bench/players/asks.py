#!/usr/bin/env python3
"""Seeks, a pause and a race, by the client of rtsp.py: asks.py PROGRAM FOLDER FILM

FILM has 25 pictures a second, so that `vodserve plan trace=` with the sizes of its units on the wire is the plan of the
film. Prints one line a check; ends with status 1 where one fails.

- Seeks: PLAY with a Range begins at the start of a group, and ends at one; the bytes are those of the film in between.
- Pause: after the 200 of a PAUSE nothing more comes; a PLAY without Range goes on where the bytes ended.
- Race: on a link with room for one play and a half, two clients send PLAY at the same moment. One plays; the other
  reads 453, plays after the first has ended its session, and gets the film.
"""

import re
import subprocess
import sys
import threading
import time
from pathlib import Path

sys.path.insert(0, str(Path(__file__).resolve().parent.parent))
import rtsp
import serving

UNIT = re.compile(r"\d+ [IPBD] show=\d+ from=(\d+) head=\d+ to=(\d+) slices=\d+(?: sequence)?( group)?")
PICTURE = 0.04  # Seconds of one picture, and of one slot.


class Film:
    def __init__(self, program, folder, name):
        self.name = name
        self.bytes = (folder / name).read_bytes()
        words = [program, "scan", f"film={name}"]
        text = subprocess.run(words, cwd=folder, check=True, capture_output=True, text=True).stdout
        lines = text.split("\n")
        if "rate=3 " not in lines[0]:
            raise rtsp.Wrong(f"{name} doesn't have 25 pictures a second: {lines[0]}")
        units = [UNIT.fullmatch(line) for line in lines[1:-2]]
        self.places = [int(unit[1]) for unit in units] + [int(units[-1][2])]
        self.groups = [k for k, unit in enumerate(units) if unit[3]]
        self.pictures = len(units)

    def group_from(self, seconds):
        """The unit that a play from this time begins with: the last start of a group not after it."""
        return max(k for k in self.groups if k * PICTURE <= seconds)

    def group_to(self, first, seconds):
        """The unit that a play up to this time ends before: the first start of a group not before it."""
        return next((k for k in self.groups if k > first and k * PICTURE >= seconds), self.pictures)

    def part(self, first, end):
        return self.bytes[self.places[first] : self.places[end]]


class Checks:
    def __init__(self):
        self.failed = 0

    def run(self, title, check, *given):
        """A check that answers its faults and what it saw. One that can't go on has failed, and the others go on."""
        try:
            self.say(title, *check(*given))
        except (rtsp.Wrong, rtsp.TooLate, rtsp.Ended, serving.NotServed, OSError) as error:
            self.say(title, [f"{type(error).__name__}: {error}"], "")

    def say(self, title, faults, told):
        self.failed += bool(faults)
        print(f"{title}: {'FAILED: ' + '; '.join(faults) if faults else told}", flush=True)


def unequal(title, ours, theirs):
    return [] if ours == theirs else [f"{title} {ours!r} for {theirs!r}"]


def differs(got, film):
    place = rtsp.first_difference(got, film)
    return [] if place is None else [f"{len(got)} bytes for {len(film)}, other from {place} on"]


def seek(server, film, asked, start, stop=None):
    """One play with a Range: its faults, and what it did."""
    first = film.group_from(start)
    end = film.pictures if stop is None else film.group_to(first, stop)
    wanted = film.part(first, end)
    media = rtsp.Media()
    with rtsp.Client(server.port, film.name) as client:
        client.set_up()
        reply = client.must("PLAY", [("Range", f"npt={asked}")])
        rtsp.read_film(client, media, len(wanted))
        rtsp.nothing_more(client, 0.2)
        client.must("TEARDOWN")
    span = f"npt={first * PICTURE:.3f}-{end * PICTURE:.3f}"
    sequence = int(re.search(r"seq=(\d+)", reply.fields["rtp-info"])[1])
    faults = differs(media.film, wanted) + unequal("Range", reply.fields["range"], span)
    faults += unequal("packets from", (media.sequence - media.packets + 1) & 0xFFFF, sequence)
    return faults, f"{len(wanted)} bytes of pictures {first} to {end}, answered {reply.fields['range']}"


def out_of_range(server, film):
    """A time after the film's end, and a Range that isn't in npt, are 457."""
    faults = []
    with rtsp.Client(server.port, film.name) as client:
        client.set_up()
        for value in (f"npt={film.pictures * PICTURE + 1}-", "clock=19961108T142300Z-", "npt=3-2"):
            faults += unequal(value, client.ask("PLAY", [("Range", value)]).code, 457)
    return faults, "457 after the film's end, for a clock's time, and for an end before the start"


def collect(client, media, seconds):
    """Takes the blocks of so many seconds."""
    end = time.monotonic() + seconds
    while (left := end - time.monotonic()) > 0:
        try:
            media.put(client.next_block(left))
        except rtsp.TooLate:
            return


def pause_and_resume(server, film):
    """Plays, pauses twice, and resumes; the joined bytes are the film, and so are the numbers of the packets."""
    media = rtsp.Media()
    places = []
    with rtsp.Client(server.port, film.name) as client:
        client.set_up()
        client.must("PLAY", [("Range", "npt=0-")])
        for _ in range(2):
            collect(client, media, 1.3)
            client.must("PAUSE")
            while client.blocks:
                media.put(client.blocks.pop(0))
            places.append(len(media.film))
            rtsp.nothing_more(client, 0.5)
            again = client.ask("PAUSE").code
            resumed = client.must("PLAY")
        rtsp.read_film(client, media, len(film.bytes))
        rtsp.nothing_more(client, 0.2)
        client.must("TEARDOWN")
    faults = differs(media.film, film.bytes) + unequal("a PAUSE while paused", again, 455)
    return faults, f"paused at bytes {places[0]} and {places[1]}, resumed with {resumed.fields['range']}, and joined to the film"


def peak_of(program, folder, film, server):
    """The most bytes of a slot of the film's plan: from the sizes of its units on the wire."""
    media = rtsp.Media()
    with rtsp.Client(server.port, film.name) as client:
        client.set_up()
        client.must("PLAY", [("Range", "npt=0-")])
        rtsp.read_film(client, media, len(film.bytes))
        client.must("TEARDOWN")
    (folder / "sizes").write_text("\n".join(map(str, media.units)))
    plan = subprocess.run([program, "plan", "trace=sizes"], cwd=folder, check=True, capture_output=True, text=True).stdout
    segments = [tuple(map(int, line.split()[1:])) for line in plan.split("\n") if line.startswith("segment")]
    return max(-(-size // slots) for slots, size in segments)


def race(server, film, room):
    """Two clients ask at once; one gets room."""
    clients = [rtsp.Client(server.port, film.name) for _ in range(2)]
    replies = [None, None]
    gate = threading.Barrier(2)

    def ask(k):
        gate.wait()
        replies[k] = clients[k].ask("PLAY", [("Range", "npt=0-")])

    for client in clients:
        client.set_up()
    threads = [threading.Thread(target=ask, args=(k,)) for k in range(2)]
    for thread in threads:
        thread.start()
    for thread in threads:
        thread.join()
    codes = sorted(reply.code for reply in replies)
    if codes != [200, 453]:
        return [f"answers {codes}"], ""
    winner = clients[0 if replies[0].code == 200 else 1]
    loser = clients[1 if replies[0].code == 200 else 0]
    lost = next(reply for reply in replies if reply.code == 453)
    slot, booked, asked = (int(lost.fields.get(name, "-1")) for name in ("x-slot", "x-booked", "x-asked"))
    faults = [] if min(slot, booked, asked) >= 0 else [f"453 says {lost.fields}"]
    if booked + asked <= room:
        faults.append(f"booked {booked} and asked {asked} have room in {room}")
    winner.must("TEARDOWN")
    # The winner's slot in hand stays booked up to the end of its last frame; the room after it is free.
    media = rtsp.Media()
    second = loser.ask("PLAY", [("Range", "npt=0-")])
    for _ in range(20):
        if second.code == 200:
            break
        time.sleep(PICTURE)
        second = loser.ask("PLAY", [("Range", "npt=0-")])
    if second.code != 200:
        return [*faults, f"no room after the winner has ended: {second}"], ""
    rtsp.read_film(loser, media, len(film.bytes))
    loser.must("TEARDOWN")
    for client in clients:
        client.socket.close()
    told = f"200 and 453 with x-Slot {slot}, x-Booked {booked}, x-Asked {asked} in {room}; then the loser got the film"
    return faults + differs(media.film, film.bytes), told


def journal_of(server):
    text, _ = server.finish()
    journal = serving.Journal(text)
    told = f"{len(journal.admitted)} plays admitted and halted, {journal.refused} refused, {journal.connections} connections"
    return journal.faults(), told


def main():
    program, folder, name = sys.argv[1], Path(sys.argv[2]), sys.argv[3]
    film = Film(program, folder, name)
    half = film.pictures * PICTURE / 2
    checks = Checks()
    with serving.Server(program, folder, [name], capacity=20000000, workers=4, connections=6) as server:
        checks.run("seek to the middle", seek, server, film, f"{half:.2f}-", half)
        checks.run("seek within", seek, server, film, f"1.5-{half:.2f}", 1.5, half)
        checks.run("seek as 0:00:01.5", seek, server, film, "0:00:01.5-3", 1.5, 3)
        checks.run("out of range", out_of_range, server, film)
        checks.run("pause and resume", pause_and_resume, server, film)
        peak = peak_of(program, folder, film, server)
        checks.run("journal", journal_of, server)
    room = peak * 3 // 2
    with serving.Server(program, folder, [name], capacity=room, workers=2, connections=2) as server:
        checks.run("race", race, server, film, room)
        checks.run("journal", journal_of, server)
    sys.exit(checks.failed > 0)


main()
