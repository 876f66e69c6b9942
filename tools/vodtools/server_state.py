"""What a monitor knows of a running server: samples of the last hours, and its films."""

import threading
import time
from collections import deque

from vodtools import program
from vodtools.rtsp import Client, RtspError, read_fields

MOST_SAMPLES = 100_000


class Sample:
    """What the server answered at one time."""

    def __init__(self, when):
        self.when = when
        self.error = None
        self.milliseconds = None
        self.slot = self.booked = None
        # entries of the journal, where it is full
        self.full = None

    @property
    def is_up(self):
        return self.error is None


class Film:
    """A film: its length, and what its plan needs of the link."""

    def __init__(self, name):
        self.name = name
        self.seconds = None
        self.peak = self.mean = None
        self.error = None

    def read_plan(self, path, settings):
        """Asks the program for the plan that the server uses for a client that names no buffer."""
        if settings.folder is None:
            self.error = "the film isn't on this machine"
            return
        args = {
            "film": self.name,
            "buffer": settings.buffer,
            "startup": settings.startup,
            "slot": settings.slot,
        }
        try:
            segments = program.segments_of(program.run(path, "plan", args, settings.folder))
        except (program.ProgramError, OSError) as error:
            self.error = str(error)
            return
        slots = sum(count for count, _ in segments)
        self.peak = program.peak_of(segments)
        self.mean = sum(size for _, size in segments) / max(1, slots)

    def read_description(self, text):
        """Takes the length from the description that the server sent."""
        for line in text.splitlines():
            if line.startswith("a=range:npt=0-"):
                self.seconds = float(line.removeprefix("a=range:npt=0-"))


def capacity_at(capacity, slot):
    """Returns the bytes that may be booked in a slot."""
    if ":" not in capacity:
        return int(capacity)
    steps = [tuple(map(int, part.split(":"))) for part in capacity.split(",")]
    return [size for begin, size in steps if begin <= slot][-1]


class ServerState:
    """Asks a server from time to time, and keeps what it answered."""

    def __init__(self, settings, host, look=True):
        self.settings, self.host, self.look = settings, host, look
        self.films = [Film(name) for name in settings.films]
        self.samples = deque(maxlen=MOST_SAMPLES)
        self.looks = self.rounds = 0
        self.lock = threading.Lock()
        # where the page is, if there is one
        self.page = None

    def read_plans(self, path):
        for film in self.films:
            film.read_plan(path, self.settings)

    def take_sample(self):
        """Asks once, over one connection, and returns the sample."""
        sample = Sample(time.time())
        begin = time.monotonic()
        try:
            with Client(self.host, self.settings.port) as client:
                self.check(client.ask("OPTIONS", "*"))
                sample.milliseconds = (time.monotonic() - begin) * 1000
                for film in self.films_to_ask():
                    reply = self.check(client.ask("DESCRIBE", client.url_of(film.name)))
                    film.read_description(reply.body)
                if self.look and self.films:
                    self.take_look(client, sample)
        except (RtspError, ValueError) as error:
            sample.error = str(error)
        with self.lock:
            self.samples.append(sample)
            self.rounds += 1
        return sample

    def films_to_ask(self):
        """Returns the films without a known length, and one of the others in turn."""
        known = [film for film in self.films if film.seconds is not None]
        others = [film for film in self.films if film.seconds is None]
        return others + ([known[self.rounds % len(known)]] if known else [])

    @staticmethod
    def check(reply):
        if reply.code != 200:
            raise RtspError(f"the server answered {reply.code} {reply.reason}")
        return reply

    def take_look(self, client, sample):
        """Asks what is booked now. This takes one entry of the server's journal."""
        url = client.url_of(self.films[0].name)
        reply = client.ask("GET_PARAMETER", url, body=b"x-Booked")
        if reply.code == 503:
            sample.full = int(reply.fields.get("x-entries", self.settings.journal))
            return
        values = read_fields(self.check(reply).body.splitlines())
        self.looks += 1
        sample.slot = int(values.get("x-slot", "0"))
        sample.booked = int(values.get("x-booked", "0"))

    def last(self):
        return self.samples[-1] if self.samples else None

    def since(self, hours):
        """Returns the samples of the last hours."""
        begin = time.time() - hours * 3600
        with self.lock:
            return [sample for sample in self.samples if sample.when >= begin]

    def rate(self, size):
        """Returns bytes in a slot as Mbit/s."""
        return program.mbit_per_second(size, self.settings.slot)

    def capacity(self, sample):
        """Returns the bytes that may be booked in a sample's slot."""
        slot = sample.slot if sample and sample.slot is not None else 0
        return capacity_at(self.settings.capacity, slot)

    def more_viewers(self, film):
        """Returns how many more plays of a film fit beside what is booked now, if it is known."""
        sample = self.last()
        if sample is None or sample.booked is None or not film.peak:
            return None
        return max(0, self.capacity(sample) - sample.booked) // film.peak
