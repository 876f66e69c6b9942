#!/usr/bin/env python3
"""Bad input over the socket while a good client plays: attack.py PROGRAM FOLDER FILM LARGE

FILM is what the good client plays again and again, each byte checked. LARGE is for the client that stops reading: a film
of more bytes than the buffers of a connection between them hold. Prints one line an attack, with the server's memory
after it; ends with status 1 where something isn't as it should be.
"""

import contextlib
import random
import socket
import struct
import sys
import threading
import time
from pathlib import Path

sys.path.insert(0, str(Path(__file__).resolve().parent.parent))
import rtsp
import serving

WORKERS = 8
EACH = 120
OFFERS = 1000
# The server lets a peer take nothing for a minute while bytes wait for it. It sees only what the socket takes, whose buffer
# may grow meanwhile and take some more, and then its minute begins anew.
PATIENCE = 150
OPTIONS = b"OPTIONS * RTSP/1.0\r\nCSeq: 77\r\n\r\n"


class GoodClient(threading.Thread):
    """Plays the film from its beginning to its end until it is told to stop, and checks each byte."""

    def __init__(self, port, name, film):
        super().__init__()
        self.port, self.name_of_film, self.film = port, name, film
        self.stopping = threading.Event()
        self.plays = 0
        self.fault = None

    def run(self):
        try:
            while not self.stopping.is_set():
                self.play()
                self.plays += 1
        except (rtsp.Wrong, rtsp.TooLate, rtsp.Ended, OSError) as error:
            self.fault = f"{type(error).__name__}: {error}"

    def play(self):
        media = rtsp.Media()
        with rtsp.Client(self.port, self.name_of_film) as client:
            client.set_up()
            client.must("PLAY")
            rtsp.read_film(client, media, len(self.film))
            client.must("TEARDOWN")
        if media.film != self.film:
            raise rtsp.Wrong(f"other bytes from {rtsp.first_difference(media.film, self.film)} on")


@contextlib.contextmanager
def opened(port, patience=5):
    with socket.create_connection(("127.0.0.1", port), timeout=patience) as plain:
        yield plain


def push(plain, data):
    """Sends bytes that the other side may not want; False where it has ended the connection before their end."""
    try:
        plain.sendall(data)
    except (BrokenPipeError, ConnectionResetError):
        return False
    except TimeoutError:
        return True
    return True


def drained(plain):
    """What comes until the server ends the connection, or for a moment; and whether it has ended it."""
    got = bytearray()
    try:
        while data := plain.recv(65536):
            got += data
        return bytes(got), True
    except ConnectionResetError:
        return bytes(got), True
    except TimeoutError:
        return bytes(got), False


def answered(plain):
    """Whether OPTIONS is answered 200 on this connection."""
    push(plain, OPTIONS)
    got = b""
    try:
        while b"\r\n\r\n" not in got:
            data = plain.recv(65536)
            if not data:
                return False
            got += data
    except (TimeoutError, ConnectionResetError):
        return False
    return got.startswith(b"RTSP/1.0 200") and b"CSeq: 77" in got


def random_bytes(port):
    numbers = random.Random(1)
    ended = 0
    for k in range(40):
        with opened(port, 0.5) as plain:
            push(plain, numbers.randbytes(1 << (k % 18)))
            with contextlib.suppress(OSError):
                plain.shutdown(socket.SHUT_WR)
            ended += drained(plain)[1]
    return ended == 40, f"40 connections with up to 131,072 random bytes, {ended} ended by the server"


def half_requests(port):
    whole = b"DESCRIBE rtsp://127.0.0.1/a.mpg RTSP/1.0\r\nCSeq: 1\r\nAccept: application/sdp\r\n\r\n"
    replies = 0
    for size in range(1, len(whole), 4):
        with opened(port) as plain:
            push(plain, whole[:size])
            with contextlib.suppress(OSError):
                plain.shutdown(socket.SHUT_WR)
            replies += bool(drained(plain)[0])
    count = len(range(1, len(whole), 4))
    return replies == 0, f"{count} connections with the front of a request, {replies} answered"


def byte_by_byte(port):
    with opened(port) as plain:
        plain.setsockopt(socket.IPPROTO_TCP, socket.TCP_NODELAY, 1)
        for byte in OPTIONS[:-1]:
            plain.sendall(bytes([byte]))
            time.sleep(0.003)
        plain.sendall(OPTIONS[-1:])
        got = plain.recv(65536)
    return got.startswith(b"RTSP/1.0 200"), f"a request byte by byte: {got[:15]!r}"


def long_heads(port):
    ended = 0
    for _ in range(10):
        with opened(port, 3) as plain:
            push(plain, b"OPTIONS * RTSP/1.0\r\n" + b"x-Field: value\r\n" * 1100)
            ended += drained(plain)[1]
    return ended == 10, f"10 connections with a head of 17,620 bytes and no end, {ended} ended by the server"


def long_bodies(port):
    with opened(port, 3) as plain:
        push(plain, b"GET_PARAMETER * RTSP/1.0\r\nCSeq: 1\r\nContent-Length: 99999999999999\r\n\r\n" + bytes(200000))
        ended = drained(plain)[1]
    return ended, f"a body of 99,999,999,999,999 bytes: {'ended by the server' if ended else 'not ended'}"


def line_ends(port):
    with opened(port, 30) as plain:
        whole = all(push(plain, b"\r\n" * 32768) for _ in range(256))
        good = whole and answered(plain)
    return good, f"16 MiB of CR LF, then OPTIONS: {'answered' if good else 'not answered'}"


def large_blocks(port):
    with opened(port, 30) as plain:
        block = b"$\x07" + struct.pack(">H", 65535) + bytes(65535)
        whole = all(push(plain, block) for _ in range(256))
        good = whole and answered(plain)
    return good, f"256 interleaved blocks of 65,535 bytes, then OPTIONS: {'answered' if good else 'not answered'}"


def flood(port):
    """Requests without end, whose replies are read only afterwards."""
    with opened(port, 3) as plain:
        whole = push(plain, OPTIONS * 3000)
        got, ended = drained(plain)
    replies = got.count(b"RTSP/1.0 200")
    good = replies == 3000 or ended
    return good, f"3,000 requests at once: {replies} replies{'' if whole and not ended else ', then ended by the server'}"


def knocks(port):
    for k in range(200):
        with opened(port) as plain:
            if k % 2:
                # Closed so, the connection is reset.
                plain.setsockopt(socket.SOL_SOCKET, socket.SO_LINGER, struct.pack("ii", 1, 0))
    return True, "200 connections opened and closed at once, half of them reset"


def vanish(port, name):
    """Clients that are gone in the middle of a play."""
    for k in range(6):
        with rtsp.Client(port, name) as client:
            client.set_up()
            client.must("PLAY")
            for _ in range(5 + k):
                client.next_block(5)
            if k % 2:
                client.socket.setsockopt(socket.SOL_SOCKET, socket.SO_LINGER, struct.pack("ii", 1, 0))
    return True, "6 clients that were gone in the middle of a play, half of them reset"


def offers(port, name):
    """Offers without end, each of which the server keeps for the report of its connection."""
    with rtsp.Client(port, name) as client:
        client.set_up()
        for _ in range(OFFERS):
            reply = client.must("GET_PARAMETER", [("Content-Type", "text/parameters"), ("x-Wait", "255")], b"x-Offer")
            if b"x-Start: " not in reply.body:
                return False, f"an offer is answered {reply.body!r}"
    return True, f"{OFFERS:,} offers asked for by one client"


class StopsReading:
    """A client that plays and takes nothing until the server has given it up; then it reads what there is, up to the end."""

    def __init__(self, port, name, size):
        self.port, self.size = port, size
        self.begun = time.monotonic()
        self.client = rtsp.Client(port, name, room=4096)
        self.own = self.client.socket.getsockname()[1]
        self.client.set_up()
        self.client.must("PLAY")

    def end(self):
        while serving.is_established(self.port, self.own):
            if time.monotonic() > self.begun + PATIENCE:
                return False, f"a client that stopped reading isn't given up after {PATIENCE} seconds"
            time.sleep(0.5)
        after = time.monotonic() - self.begun
        media = rtsp.Media()
        with self.client, contextlib.suppress(rtsp.Ended, rtsp.TooLate, rtsp.Wrong, OSError):
            rtsp.read_film(self.client, media, self.size, 5)
        told = f"given up after {after:.0f} seconds, with {len(media.film)} of {self.size} bytes of the film"
        return len(media.film) < self.size, f"a client that stopped reading: {told}"


def main():
    program, folder, name, large = sys.argv[1], Path(sys.argv[2]), sys.argv[3], sys.argv[4]
    film = (folder / name).read_bytes()
    bad = 0
    words = {"capacity": 10**9, "workers": WORKERS, "connections": EACH}
    with serving.Server(program, folder, [name, large], **words) as server:
        port = server.port
        good = GoodClient(port, name, film)
        good.start()
        stopped = StopsReading(port, large, (folder / large).stat().st_size)
        time.sleep(3)
        before = server.memory()[0]
        print(f"memory {before:,} KiB while the good client plays", flush=True)
        plain = [random_bytes, half_requests, byte_by_byte, long_heads, long_bodies, line_ends, large_blocks, flood, knocks]
        attacks = [lambda attack=attack: attack(port) for attack in plain]
        for attack in [*attacks, lambda: vanish(port, name), lambda: offers(port, name), stopped.end]:
            try:
                as_it_should, told = attack()
            except (OSError, rtsp.Wrong, rtsp.TooLate, rtsp.Ended) as error:
                as_it_should, told = False, f"{type(error).__name__}: {error}"
            if not server.is_running():
                as_it_should, told = False, f"{told}; the server is gone"
            memory = f"memory {server.memory()[0]:,} KiB" if server.is_running() else server.errors()
            bad += not as_it_should
            print(f"{'' if as_it_should else 'FAILED: '}{told}; {memory}", flush=True)
        good.stopping.set()
        good.join()
        bad += good.fault is not None
        print(f"the good client played {good.plays} times, each byte as it should be{'' if good.fault is None else ', but then FAILED: ' + good.fault}")
        after, peak = server.memory()
        bad += after > before * 1.5 + 4096
        print(f"memory {before:,} KiB before, {after:,} KiB after, peak {peak:,} KiB")
        text, left = server.finish(120)
    journal = serving.Journal(text)
    for fault in journal.faults():
        bad += 1
        print(f"FAILED: journal: {fault}")
    print(
        f"ended by itself with status 0 after {journal.connections} connections, the last {left} of them to use them up;"
        f" {len(journal.admitted)} plays admitted, {len(journal.halts)} halts"
    )
    sys.exit(bad > 0)


main()
