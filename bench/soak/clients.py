"""Clients that draw their sessions from a number, and compare every byte that comes."""

import contextlib
import functools
import random
import re
import threading
import time

from days import curves, plan
from memory import Account
from rtsp import Wrong
from serving import is_established
from viewer import OK, Viewer, Wire, shown, units_between, want

SLOT = 14_400
# Seconds that a client waits for what a healthy server does at once.
PATIENCE = 120
# Seconds in which a peer that sent no complete request is given up at the latest. One that takes
# nothing is given up a minute after the last byte that its system took.
NO_REQUEST, TAKES_NOTHING = 60, 200
BUFFERS = (1_048_576, 262_144, 65_536)
# How many of 100 sessions are of which kind.
KINDS = (
    ("whole", 30), ("seeks", 25), ("pauses", 20), ("asks", 8), ("breaks", 8), ("stalls", 5),
    ("knocks", 2), ("vanishes", 2))
PARAMETERS = "Content-Type: text/parameters"
REFUSED = re.compile(
    "RTSP/1.0 453 Not Enough Bandwidth\r\nCSeq: [0-9]+\r\nx-Slot: [0-9]+\r\nx-Booked: [0-9]+\r\n"
    "x-Asked: [0-9]+\r\n\r\n")
LOOKED = re.compile("x-Now: ([0-9]+)\r\nx-Slot: ([0-9]+)\r\nx-Booked: ([0-9]+)\r\n")
OFFERED = re.compile(
    "x-Start: (?:[0-9]+|none)\r\n(?:x-Over: [0-9]+ [0-9]+ [0-9]+ [0-9]+\r\n)*")


@functools.cache
def segments_of(film, first, end, buffer, delay):
    """How many straight lines the plan of a new run has, or None where the buffer is too small."""
    made = curves(film.sizes[first:end], film.time, SLOT, buffer, delay, 0, 0)
    if isinstance(made, str):
        return None
    slots = plan(0, *made)
    # Slots of one line differ by a byte at most, as whole bytes are sent.
    lines, low, high = 1, slots[0], slots[0]
    for size in slots[1:]:
        low, high = min(low, size), max(high, size)
        if high - low > 1:
            lines, low, high = lines + 1, size, size
    return lines


class Soak:
    """What all clients share: the server's port, the films, when to stop, and the faults."""

    def __init__(self, server, films):
        self.server, self.films = server, films
        self.stopping = threading.Event()
        self.faults, self.lock = [], threading.Lock()
        self.media = self.sessions = self.shortages = 0
        self.kinds = dict.fromkeys((kind for kind, _ in KINDS), 0)

    def fault(self, text):
        with self.lock:
            self.faults.append(text)
            print(f"FAILED: {text}", flush=True)

    def done(self, kind, media):
        with self.lock:
            self.sessions += 1
            self.kinds[kind] += 1
            self.media += media


class Client:
    """Draws one session after another, until it is told to stop."""

    def __init__(self, soak, number, seed):
        self.soak, self.number = soak, number
        self.draw = random.Random(f"{seed} {number}")
        self.account = Account()
        self.count = 0

    def run(self):
        kinds, weights = zip(*KINDS)
        while not self.soak.stopping.is_set() and self.soak.server.is_running():
            self.count += 1
            kind = self.draw.choices(kinds, weights)[0]
            self.media = 0
            try:
                getattr(self, kind)()
            except Exception as error:
                self.soak.fault(
                    f"client {self.number}, session {self.count}, {kind}:"
                    f" {type(error).__name__}: {' '.join(str(error).split())}")
                time.sleep(1)
            finally:
                self.account.close_connection()
            self.soak.done(kind, self.media)

    @contextlib.contextmanager
    def viewer(self, name=None, **how):
        """A client of a drawn film, with a drawn buffer and start delay."""
        names = [film for film in self.soak.films if film != "large.mpg"]
        film = self.soak.films[name or self.draw.choice(names)]
        self.buffer, self.delay = self.draw.choice(BUFFERS), self.draw.randrange(40)
        first = self.draw.randrange(0, 254, 2)
        how["channels"] = (first, first + 1)
        with Viewer(
                self.soak.server.port, film, f"x-Buffer: {self.buffer}",
                f"x-Startup: {self.delay}", patience=PATIENCE, **how) as viewer:
            yield viewer
            self.media += viewer.place

    def start(self, viewer, *fields, units=None):
        """PLAY; False where it was refused for bandwidth, or its buffer is too small."""
        before = viewer.place
        reply = viewer.ask("PLAY", viewer.url, viewer.session, *fields)
        first, end = units or (viewer.run.first, viewer.run.end)
        lines = segments_of(viewer.film, first, end, self.buffer, self.delay)
        if viewer.started(reply, units):
            self.media += before if units else 0
            self.account.admit(lines or 1)
            return True
        if reply.startswith("RTSP/1.0 451 ") and lines is None:
            return False
        if not REFUSED.fullmatch(reply):
            raise Wrong(f"expected PLAY granted or refused for bandwidth, got {shown(reply)}")
        self.account.refuse(lines or 1)
        return False

    def whole_film(self, viewer):
        return self.start(viewer, units=(0, len(viewer.film.units)))

    def part(self, viewer):
        """PLAY of a drawn part."""
        length = len(viewer.film.units) * viewer.film.time // 360
        start, stop = sorted(self.draw.sample(range(length), 2))
        units = units_between(viewer.film, start / 1000, stop / 1000)
        field = f"Range: npt={start / 1000:.3f}-{stop / 1000:.3f}"
        return self.start(viewer, field, units=units)

    def leave(self, viewer):
        """TEARDOWN, or an end of the connection without a word."""
        if self.draw.random() < 0.7:
            viewer.tear_down()

    def whole(self):
        """A film, played to its end."""
        with self.viewer() as viewer:
            if self.whole_film(viewer):
                viewer.play()
            self.leave(viewer)

    def seeks(self):
        """Parts, each of them cut short by a pause or played to its end."""
        with self.viewer() as viewer:
            for _ in range(self.draw.randrange(1, 5)):
                if not self.part(viewer):
                    continue
                viewer.play(self.draw.randrange(2 * len(viewer.run.bytes)))
                if not viewer.is_complete():
                    viewer.pause()
            self.leave(viewer)

    def pauses(self):
        """A film with pauses."""
        with self.viewer() as viewer:
            if not self.whole_film(viewer):
                return self.leave(viewer)
            for _ in range(self.draw.randrange(1, 5)):
                viewer.play(self.draw.randint(viewer.place, len(viewer.run.bytes)))
                if viewer.is_complete() or not viewer.pause():
                    break
                viewer.quiet(self.draw.random() * 2)
                if not self.start(viewer):
                    return self.leave(viewer)
            viewer.play()
            self.leave(viewer)
        return None

    def asks(self):
        """Offers and looks, and a play at last."""
        with self.viewer() as viewer:
            for _ in range(self.draw.randrange(1, 20)):
                if self.draw.random() < 0.5:
                    self.look(viewer)
                else:
                    self.offer(viewer)
            if self.part(viewer):
                viewer.play()
            self.leave(viewer)

    def look(self, viewer):
        reply = viewer.ask("GET_PARAMETER", viewer.url, PARAMETERS, body="x-Booked")
        found = LOOKED.search(reply)
        want("a look", OK[:-2], reply.split("\r\n")[0])
        if not found:
            raise Wrong(f"expected a look, got {shown(reply)}")
        self.account.look()
        return int(found[3])

    def offer(self, viewer):
        wait = self.draw.randrange(40)
        lines = segments_of(viewer.film, 0, len(viewer.film.units), self.buffer, self.delay)
        reply = viewer.ask(
            "GET_PARAMETER", viewer.url, viewer.session, f"x-Wait: {wait}", body="x-Offer")
        if lines is None and reply.startswith("RTSP/1.0 451 "):
            return
        head, _, body = reply.partition("\r\n\r\n")
        if not head.startswith(OK) or not OFFERED.fullmatch(body):
            raise Wrong(f"expected an offer, got {shown(reply)}")
        self.account.offer(wait, lines or 1)

    def breaks(self):
        """A play that the client breaks off, by a reset or an end."""
        with self.viewer() as viewer:
            if self.whole_film(viewer):
                viewer.play(self.draw.randrange(len(viewer.run.bytes)))
            if self.draw.random() < 0.5:
                viewer.reset()

    def stalls(self):
        """A client that stops reading for a while, and then takes all that it missed."""
        name = self.draw.choice(("large.mpg", None))
        with self.viewer(name, room=8192) as viewer:
            if self.whole_film(viewer):
                time.sleep(self.draw.uniform(2, 12))
                viewer.play()
            self.leave(viewer)

    def knocks(self):
        """Connections that ask nothing, and end at once or by a reset."""
        for number in range(self.draw.randrange(1, 10)):
            if number:
                self.account.close_connection()
            with Wire(self.soak.server.port, patience=PATIENCE) as wire:
                if self.draw.random() < 0.5:
                    wire.reset()

    def vanishes(self):
        """A peer that is gone without a word: in half a request, or in a play."""
        if self.draw.random() < 0.7:
            with Wire(self.soak.server.port, patience=NO_REQUEST) as wire:
                wire.socket.sendall(b"DESCRIBE rtsp://h/news.mpg RTSP/1.0\r\nCS")
                wire.end()
            return
        with self.viewer("large.mpg", room=4096) as viewer:
            if self.whole_film(viewer):
                self.await_end(viewer)

    def await_end(self, viewer):
        """Waits, and takes nothing, until the server has given the connection up."""
        port, own = self.soak.server.port, viewer.socket.getsockname()[1]
        end = time.monotonic() + TAKES_NOTHING
        while is_established(port, own) and not self.soak.stopping.is_set():
            if time.monotonic() > end:
                raise Wrong(f"expected a client that takes nothing given up in {TAKES_NOTHING} s")
            time.sleep(1)
