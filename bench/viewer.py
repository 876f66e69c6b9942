"""A client that knows which bytes have to come: each frame and report of a play, and each reply.

RTSP 1.0 is RFC 2326; the media come interleaved on the same connection (section 10.12). Where
something else comes than should, `rtsp.Wrong` is raised with one line that says what.

Needs `transcript/` of this folder among the paths of modules, for the model of a film's packets.
"""

import re
import socket
import struct
import time

from films import Run
from rtsp import Ended, TooLate, Wrong

OK = "RTSP/1.0 200 OK\r\n"
LONGEST_SHOWN = 200


def shown(value):
    """A value on one line, shortened in its middle."""
    text = repr(value)
    half = LONGEST_SHOWN // 2
    return text if len(text) <= LONGEST_SHOWN else f"{text[:half]} .. {text[-half:]}"


def want(what, wanted, came):
    """Raises Wrong where what came isn't what was expected."""
    if wanted != came:
        raise Wrong(f"{what}: expected {shown(wanted)}, got {shown(came)}")


class Wire:
    """One connection to a server of this machine. Replies are kept as they came, media are dropped.

    `patience` is for how many seconds each call waits unless it is told otherwise; `room` is how
    many bytes the system may keep that aren't read yet."""

    def __init__(self, port, host="127.0.0.1", patience=120, room=None):
        self.patience = patience
        self.came = bytearray()
        self.number = 0
        self.socket = socket.socket()
        if room:
            # The window of a connection is fixed as it is made, so its room is set before.
            self.socket.setsockopt(socket.SOL_SOCKET, socket.SO_RCVBUF, room)
        self.socket.settimeout(patience)
        self.socket.connect((host, port))
        self.socket.setsockopt(socket.IPPROTO_TCP, socket.TCP_NODELAY, 1)

    def __enter__(self):
        return self

    def __exit__(self, *_):
        self.socket.close()

    def reset(self):
        """Ends the connection by a reset."""
        self.socket.setsockopt(socket.SOL_SOCKET, socket.SO_LINGER, struct.pack("ii", 1, 0))
        self.socket.close()

    def receive(self, patience):
        """Waits for more bytes. Raises Ended at the end, and TooLate where none came."""
        self.socket.settimeout(max(patience, 0.001))
        try:
            data = self.socket.recv(65536)
        except TimeoutError:
            raise TooLate(f"nothing came, {len(self.came)} bytes wait") from None
        except ConnectionError:
            data = b""
        if not data:
            raise Ended(f"the connection ended with {len(self.came)} bytes that wait")
        self.came += data

    def take(self):
        """The next reply or block that is complete, or None. A block begins with a dollar sign."""
        if self.came[:1] == b"$":
            end = 4 + int.from_bytes(self.came[2:4], "big") if len(self.came) >= 4 else None
        else:
            end = self.reply_end()
        if end is None or end > len(self.came):
            return None
        item = bytes(self.came[:end])
        del self.came[:end]
        return item

    def reply_end(self):
        head = self.came.find(b"\r\n\r\n")
        if head < 0:
            return None
        length = re.search(rb"\r\nContent-Length: (\d+)\r\n", self.came[:head + 2])
        return head + 4 + (int(length[1]) if length else 0)

    def next(self, end):
        """The next item, waited for until a moment."""
        while (item := self.take()) is None:
            if time.monotonic() >= end:
                raise TooLate(f"an item isn't complete, {len(self.came)} bytes wait")
            self.receive(end - time.monotonic())
        return item

    def put(self, block):
        """What is done with a block of media."""

    def reply(self):
        """The next reply, as text; the blocks before it are put."""
        end = time.monotonic() + self.patience
        while True:
            item = self.next(end)
            if item[:1] != b"$":
                return item.decode("latin1")
            self.put(item)

    def quiet(self, seconds):
        """Raises Wrong where anything comes in these seconds."""
        try:
            if not self.came:
                self.receive(seconds)
        except TooLate:
            return
        raise Wrong(f"expected nothing for {seconds} s, got {shown(bytes(self.came))}")

    def end(self):
        """Waits for the server to end the connection."""
        try:
            self.receive(self.patience)
        except Ended:
            return
        except TooLate:
            raise Wrong(f"expected the connection's end, it is open {self.patience} s") from None
        raise Wrong(f"expected the connection's end, got {shown(bytes(self.came))}")

    def send(self, method, url, *fields, body=""):
        """Sends a request with the next number."""
        self.number += 1
        lines = [f"{method} {url} RTSP/1.0", f"CSeq: {self.number}", *fields]
        lines += [f"Content-Length: {len(body)}"] if body else []
        self.socket.sendall(("\r\n".join([*lines, "", ""]) + body).encode())

    def ask(self, method, url, *fields, body=""):
        self.send(method, url, *fields, body=body)
        return self.reply()


class Viewer(Wire):
    """A client that sets a film up and plays it. `film` is a model of films.py."""

    def __init__(self, port, film, *fields, channels=(0, 1), **how):
        super().__init__(port, **how)
        self.film, self.channels = film, channels
        self.url = f"rtsp://127.0.0.1:{port}/{film.name}"
        # The frames and octets of earlier runs, and of the current run how many bytes came.
        self.frames = self.octets = self.place = 0
        self.run = self.words = None
        transport = f"Transport: RTP/AVP/TCP;unicast;interleaved={channels[0]}-{channels[1]}"
        reply = self.ask("SETUP", self.url + "/video", transport, *fields)
        found = re.fullmatch(
            f"{OK}CSeq: 1\r\n{re.escape(transport)};ssrc=([0-9a-f]{{8}})\r\n"
            "Session: ([0-9a-f]{16})\r\n\r\n", reply)
        if not found:
            raise Wrong(f"expected a reply to SETUP, got {shown(reply)}")
        self.source, self.identity = int(found[1], 16), found[2]
        self.session = f"Session: {self.identity}"

    def put(self, block):
        """Compares a block with the run's bytes at its place."""
        after = self.place + len(block)
        wanted = self.run.bytes[self.place:after] if self.run else b""
        if wanted != block:
            name, units = self.film.name, self.run and (self.run.first, self.run.end)
            raise Wrong(
                f"media of {name}, units {units}, from byte {self.place} on: expected"
                f" {shown(wanted)}, got {shown(block)}")
        self.place = after

    def start(self, *fields, units=None):
        """PLAY, which must be granted; `units` are those of a new run, else one is resumed."""
        reply = self.ask("PLAY", self.url, self.session, *fields)
        if not self.started(reply, units):
            raise Wrong(f"expected PLAY granted, got {shown(reply)}")

    def started(self, reply, units=None):
        """Whether the reply grants PLAY, as it should be worded."""
        if not reply.startswith(OK):
            return False
        found = re.fullmatch(
            f"{OK}CSeq: {self.number}\r\n{self.session}\r\nRange: npt=([0-9.]+-[0-9.]+)\r\n"
            f"RTP-Info: url={re.escape(self.url)}/video;seq=([0-9]+);rtptime=([0-9]+)\r\n"
            "x-Start: ([0-9]+)\r\n\r\n", reply)
        if not found:
            raise Wrong(f"expected a reply to PLAY, got {shown(reply)}")
        self.range, self.begin = found[1], int(found[4])
        sequence, stamp = int(found[2]), int(found[3])
        if units:
            self.begin_run(units, sequence, stamp)
        else:
            frames, _ = self.run.counts(self.place)
            due = (self.words[3] + self.frames + frames) % 2 ** 16
            want("RTP-Info of a resumed run: sequence number", due, sequence)
        return True

    def begin_run(self, units, sequence, stamp):
        """The first run's numbers are the session's own; those of a later one follow from them."""
        first, end = units
        if self.run:
            frames, octets = self.run.counts(self.place)
            self.frames, self.octets = self.frames + frames, self.octets + octets
        base = (stamp - first * self.film.time // 4) % 2 ** 32
        if self.words is None:
            self.words = (0, 0, self.source, sequence, base)
        want("RTP-Info: sequence number", (self.words[3] + self.frames) % 2 ** 16, sequence)
        want(f"RTP-Info: the time stamp of unit 0, from that of unit {first}", self.words[4], base)
        self.run, self.place = Run(
            self.film, first, end, self.channels, self.words, 0, self.frames, self.octets), 0

    def is_complete(self):
        return self.place == len(self.run.bytes)

    def play(self, size=None, patience=None):
        """Reads media until so many bytes of the run have come, or all."""
        end = time.monotonic() + (patience or self.patience)
        size = len(self.run.bytes) if size is None else min(size, len(self.run.bytes))
        while self.place < size:
            item = self.next(end)
            if item[:1] != b"$":
                raise Wrong(f"expected media, got {shown(item)}")
            self.put(item)

    def pause(self):
        """PAUSE: the media before the reply end with a frame or report. False where the play had
        ended before."""
        reply = self.ask("PAUSE", self.url, self.session)
        if reply.startswith("RTSP/1.0 455 ") and self.is_complete():
            return False
        want("PAUSE", f"{OK}CSeq: {self.number}\r\n{self.session}\r\n\r\n", reply)
        if self.place not in self.run.ends:
            raise Wrong(f"expected a pause at the end of a frame or report, got byte {self.place}")
        return True

    def tear_down(self):
        """TEARDOWN, after which the server ends the connection."""
        reply = self.ask("TEARDOWN", self.url, self.session)
        want("TEARDOWN", f"{OK}CSeq: {self.number}\r\n{self.session}\r\n\r\n", reply)
        self.end()


def units_between(film, start, stop):
    """The units that are played for a range of seconds: from the last start of a group that isn't
    after it, to the next one that isn't before its end."""
    groups = [k for k, unit in enumerate(film.units) if unit.starts_group]
    # In whole milliseconds, as the request has them: 9.12 * 360,000 is below 3,283,200 otherwise.
    begin, end = (round(seconds * 1000) * 360 for seconds in (start, stop))
    first = max(k for k in groups if k * film.time <= begin)
    later = [k for k in groups if k > first and k * film.time >= end]
    return first, later[0] if later else len(film.units)
