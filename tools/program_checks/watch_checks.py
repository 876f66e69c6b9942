"""The command `watch`: against the server, and against a server that says what it is told to."""

import re
import socket
import struct
import threading

from films import Run
from lab import PATIENCE, Check, must, want_bytes
from samples import SMALL, TINY
from viewer import want

SESSION = "0123456789abcdef"
SOURCE = 0x01020304
# The media of SMALL with the sequence number 1 and the time stamp 0: a report, and two packets.
REPORT = bytes.fromhex(
    "24010030 80c80006 01020304 0000000000000000 00000000 00000000 00000000"
    "81ca0004 01020304 0108") + b"vodserve\0\0"
PACKETS = [
    bytes.fromhex("24000032 80a00001 00000000 01020304 00003900") + TINY,
    bytes.fromhex("2400001f 80a00002 00000e10 01020304 00011a01") + SMALL[len(TINY):]]


def requests(port):
    """What the client asks, with the default buffer and start delay."""
    url = f"rtsp://127.0.0.1:{port}/small.mpg"
    return [
        f"SETUP {url}/video RTSP/1.0\r\nCSeq: 1\r\n"
        "Transport: RTP/AVP/TCP;unicast;interleaved=0-1\r\n"
        "x-Buffer: 1048576\r\nx-Startup: 25\r\n\r\n",
        f"PLAY {url} RTSP/1.0\r\nCSeq: 2\r\nSession: {SESSION}\r\nRange: npt=0-\r\n\r\n",
        f"TEARDOWN {url} RTSP/1.0\r\nCSeq: 3\r\nSession: {SESSION}\r\n\r\n"]


def reply(number, *fields, status="200 OK"):
    return "\r\n".join([f"RTSP/1.0 {status}", f"CSeq: {number}", *fields, "", ""]).encode()


SETUP = reply(1, "Transport: RTP/AVP/TCP", f"Session: {SESSION};timeout=60")
PLAY = reply(2, "Range: npt=0.000-0.080", "x-Start: 1")
NO_START = reply(2, "Range: npt=0.000-0.080")
TEARDOWN = reply(3)
MEDIA = REPORT + b"".join(PACKETS)
# A packet of another payload type, and one whose number isn't the next.
OTHER_KIND = PACKETS[0][:5] + b"\xa1" + PACKETS[0][6:]
OTHER_NUMBER = PACKETS[1][:7] + b"\x03" + PACKETS[1][8:]

# What a server says after each request, and then whether it resets the connection; how many
# requests it gets; the status, the output and the line on the error stream.
SAID = [
    ("a film", [SETUP, PLAY + MEDIA, TEARDOWN], False, 3, 0, SMALL,
     r"watched units=2 bytes=49 frames=2 reports=1 most=\d+ over=\d+ under=\d+"),
    ("SETUP refused", [reply(1, status="453 Not Enough Bandwidth")], False, 1, 3, b"",
     "vodserve: small.mpg: Refused 453"),
    ("another CSeq", [reply(9)], False, 1, 3, b"", "vodserve: small.mpg: BadReply 1"),
    ("no start", [SETUP, NO_START], False, 2, 3, b"", "vodserve: small.mpg: BadReply 2"),
    ("another payload type", [SETUP, PLAY + OTHER_KIND], False, 2, 3, b"",
     "vodserve: small.mpg: BadFrame 0"),
    ("a lost packet", [SETUP, PLAY + REPORT + PACKETS[0] + OTHER_NUMBER], False, 2, 3, TINY,
     "vodserve: small.mpg: BadFrame 1"),
    ("a head without end", [b"RTSP/1.0 200 OK\r\n" + b"x: y\r\n" * 4000], False, 1, 3, b"",
     "vodserve: small.mpg: Framing"),
    ("an end after a picture", [SETUP, PLAY + REPORT + PACKETS[0]], False, 2, 3, TINY,
     "vodserve: small.mpg: EndedEarly 1"),
    ("a reset", [], True, 1, 8, b"", "vodserve: LinkFault"),
]


class Scripted(threading.Thread):
    """A server of one connection that says what it is told to, and keeps what it is asked."""

    def __init__(self, said, resets):
        super().__init__(daemon=True)
        self.said, self.resets = said, resets
        self.asked = b""
        self.listener = socket.create_server(("127.0.0.1", 0))
        self.port = self.listener.getsockname()[1]

    def run(self):
        try:
            self.serve()
        except OSError:
            # What the client asked tells the rest.
            pass

    def serve(self):
        with self.listener:
            self.listener.settimeout(PATIENCE)
            link, _ = self.listener.accept()
        with link:
            link.settimeout(PATIENCE)
            for number, data in enumerate(self.said, 1):
                self.hear(link, number)
                link.sendall(data)
            if self.resets:
                self.hear(link, 1)
                link.setsockopt(socket.SOL_SOCKET, socket.SO_LINGER, struct.pack("ii", 1, 0))
                return
            link.shutdown(socket.SHUT_WR)
            while data := link.recv(65536):
                self.asked += data

    def hear(self, link, count):
        while self.asked.count(b"\r\n\r\n") < count:
            data = link.recv(65536)
            if not data:
                return
            self.asked += data


def hears(lab, said, resets, count, status, out, err):
    server = Scripted(said, resets)
    server.start()
    ran = lab.run("watch", "film=small.mpg", f"port={server.port}")
    server.join(PATIENCE)
    must(f"status {status}, {out} and {err}",
         (ran.status, ran.out) == (status, out) and re.fullmatch(err + "\n", ran.err.decode()), ran)
    want("requests", "".join(requests(server.port)[:count]), server.asked.decode())


def has_nobody(lab):
    ran = lab.run("watch", "film=small.mpg", f"port={lab.ports.take()}")
    want("`watch` where nobody listens", (7, b"", b"vodserve: GateFault\n"), ran)


def fits_model(lab):
    """The model of the packets that other checks use gives the bytes that stand here by hand."""
    run = Run(lab.models["small.mpg"], 0, 2, (0, 1), (0, 0, SOURCE, 1, 0), 0, 0, 0)
    want_bytes("the model's media", MEDIA, run.bytes)


def watches_film(lab):
    """A film of the server comes back byte for byte, and the server's journal has its play."""
    film = lab.models["colours.mpg"]
    with lab.serving([film.name], workers=1, connections=1) as server:
        ran = lab.run("watch", f"film={film.name}", f"port={server.port}")
        want_bytes("the film watched", film.data, ran.out)
        frames, reports = sum(len(unit.packets) for unit in film.units), sum(
            unit.starts_group for unit in film.units)
        line = (
            f"watched units={len(film.units)} bytes={len(film.data)} frames={frames}"
            rf" reports={reports} most=\d+ over=\d+ under=\d+" "\n")
        must(f"status 0 and {line}", ran.status == 0 and re.fullmatch(line, ran.err.decode()),
             (ran.status, ran.err))
        want("the server's status", 0, server.child.wait(PATIENCE))
        total = sum(film.sizes)
        # 249 more pictures after the first, each in a slot, and 25 slots before the first.
        journal = (
            rf"0 seat=1 play slot=(\d+) slots=275 bytes={total} admitted start=(\d+)" "\n"
            f"1 seat=1 halt number=0 keep={total} halted\n"
            r"calendar from=(\d+)" "\n" r"(?:at \d+ booked=\d+" "\n)*end\n"
            "served connections=1 entries=2\n")
        found = re.fullmatch(journal, server.text())
        must("a journal of a play and its halt", found, server.text())
        want("start and now", (int(found[1]) + 1, int(found[1])), (int(found[2]), int(found[3])))


def is_refused(lab):
    with lab.serving(["small.mpg"], workers=1) as server:
        ran = lab.run("watch", "film=gone.mpg", f"port={server.port}")
        want("a film that the server doesn't have",
             (3, b"", b"vodserve: gone.mpg: Refused 404\n"), ran)


def cannot_write(lab):
    with lab.serving(["small.mpg"], workers=1) as server, open("/dev/full", "wb") as full:
        ran = lab.run("watch", "film=small.mpg", f"port={server.port}", out=full)
        want("`watch` to a full device", (5, b"vodserve: SinkFault\n"), (ran.status, ran.err))


def checks():
    named = [(f"watch: {name}", lambda lab, case=case: hears(lab, *case)) for name, *case in SAID]
    named += [
        ("watch: nobody listens", has_nobody), ("the model of the packets", fits_model),
        ("watch: a film of the server", watches_film),
        ("watch: a film that is missing", is_refused), ("watch: a full device", cannot_write)]
    return [Check(name, call) for name, call in named]
