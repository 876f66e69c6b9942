"""The server over loopback: its replies, its media byte for byte, its journal, where it listens."""

import re
import socket
import struct
import time
from concurrent.futures import ThreadPoolExecutor

from days import curves, plan
from lab import PATIENCE, Check, Failed, must, until
from viewer import OK, Viewer, Wire, shown, want

OPTIONS = (
    f"{OK}CSeq: 1\r\n"
    "Public: OPTIONS, DESCRIBE, SETUP, PLAY, PAUSE, TEARDOWN, GET_PARAMETER\r\n\r\n")
# At a film of ten seconds.
DESCRIPTION = (
    "v=0\r\no=- 0 0 IN IP4 127.0.0.1\r\ns=news.mpg\r\nc=IN IP4 0.0.0.0\r\nt=0 0\r\na=control:*\r\n"
    "a=range:npt=0-10.000\r\nm=video 0 RTP/AVP 32\r\na=control:video\r\n")
NEWS = "rtsp://127.0.0.1:8554/news.mpg"
TCP = "Transport: RTP/AVP/TCP;unicast;interleaved=0-1"
MANY_STARTS = 64


def error(code, reason, number, *fields):
    return "\r\n".join([f"RTSP/1.0 {code} {reason}", f"CSeq: {number}", *fields, "", ""])


def answers_words(lab):
    """An ordinary session: the texts of its replies."""
    with lab.serving(["news.mpg"], workers=2) as server, Wire(server.port) as wire:
        want("OPTIONS", OPTIONS, wire.ask("OPTIONS", "*"))
        described = wire.ask("DESCRIBE", NEWS, "Accept: application/sdp")
        want("DESCRIBE", (
            f"{OK}CSeq: 2\r\nContent-Base: {NEWS}/\r\nContent-Type: application/sdp\r\n"
            f"Content-Length: 142\r\n\r\n{DESCRIPTION}"), described)
        udp = wire.ask("SETUP", NEWS + "/video", "Transport: RTP/AVP;unicast;client_port=5000-5001")
        want("SETUP over UDP", error(461, "Unsupported Transport", 3), udp)
        taken = wire.ask("SETUP", NEWS + "/video", TCP)
        found = re.fullmatch(
            f"{OK}CSeq: 4\r\n{TCP};ssrc=[0-9a-f]{{8}}\r\nSession: ([0-9a-f]{{16}})\r\n\r\n", taken)
        if not found:
            raise Failed(f"SETUP over TCP: got {shown(taken)}")
        session = f"Session: {found[1]}"
        played = wire.ask("PLAY", NEWS, session, "Range: npt=0.000-")
        must("a reply to PLAY", re.fullmatch(
            f"{OK}CSeq: 5\r\n{session}\r\nRange: npt=0.000-10.000\r\nRTP-Info: url={NEWS}/video;"
            "seq=[0-9]+;rtptime=[0-9]+\r\nx-Start: [0-9]+\r\n\r\n", played), played)
        wire.socket.sendall(b"$\x01\x00\x08" + struct.pack(">BBHI", 0x80, 201, 1, 7))
        want("GET_PARAMETER", f"{OK}CSeq: 6\r\n\r\n", wire.ask("GET_PARAMETER", NEWS, session))
        want("TEARDOWN", f"{OK}CSeq: 7\r\n{session}\r\n\r\n", wire.ask("TEARDOWN", NEWS, session))
        wire.end()


SMALL_URL = "rtsp://h/small.mpg"
# Requests with a CSeq in their place, before SETUP and after it, and what is answered.
BEFORE = [
    ("PLAY", SMALL_URL, (), 454, "Session Not Found"),
    ("TEARDOWN", SMALL_URL, (), 454, "Session Not Found"),
    ("RECORD", SMALL_URL, (), 501, "Not Implemented"),
    ("DESCRIBE", "rtsp://h/gone.mpg", (), 404, "Not Found"),
    ("DESCRIBE", "rtsp://h/small.mpg/audio", (), 404, "Not Found"),
    ("DESCRIBE", SMALL_URL, ("Require: x",), 551, "Option Not Supported", "Unsupported: x"),
    ("DESCRIBE", "http://h/small.mpg", (), 400, "Bad Request"),
    ("DESCRIBE", SMALL_URL, ("no header",), 400, "Bad Request"),
    ("SETUP", SMALL_URL, (), 461, "Unsupported Transport"),
    ("SETUP", SMALL_URL, (TCP, "x-Buffer: 0"), 451, "Parameter Not Understood"),
    ("SETUP", SMALL_URL, (TCP, "x-Startup: 10001"), 451, "Parameter Not Understood"),
]
AFTER = [
    ("SETUP", SMALL_URL, (TCP,), 455, "Method Not Valid In This State"),
    ("PAUSE", SMALL_URL, (), 455, "Method Not Valid In This State"),
    ("PLAY", "rtsp://h/news.mpg", (), 404, "Not Found"),
    ("PLAY", SMALL_URL, ("Range: npt=0.08-",), 457, "Invalid Range"),
    ("PLAY", SMALL_URL, ("Range: npt=0-0",), 457, "Invalid Range"),
    ("PLAY", SMALL_URL, ("Range: smpte=0:00-",), 457, "Invalid Range"),
    ("PLAY", SMALL_URL, (), 451, "Parameter Not Understood", "x-Least-Buffer: 106"),
]


def refuses(lab):
    """What isn't granted, in order of the states."""
    with lab.serving(["small.mpg", "news.mpg"], workers=2) as server, Wire(server.port) as wire:
        for method, url, fields, code, reason, *more in BEFORE:
            reply = wire.ask(method, url, *fields)
            want(f"{method} {url} {fields}", error(code, reason, wire.number, *more), reply)
        wire.socket.sendall(f"PLAY {SMALL_URL} RTSP/2.0\r\nCSeq: 90\r\n\r\n".encode())
        want("RTSP/2.0", error(505, "RTSP Version Not Supported", 90), wire.reply())
        wire.socket.sendall(f"OPTIONS {SMALL_URL} RTSP/1.0\n\n".encode())
        want("no CSeq", "RTSP/1.0 400 Bad Request\r\n\r\n", wire.reply())
        reply = wire.ask("SETUP", SMALL_URL, TCP, "x-Buffer: 105", "x-Startup: 2")
        session = "Session: " + reply.partition("Session: ")[2].strip()
        wrong = wire.ask("PLAY", SMALL_URL, "Session: 0")
        want("PLAY with another session", error(454, "Session Not Found", wire.number), wrong)
        for method, url, fields, code, reason, *more in AFTER:
            reply = wire.ask(method, url, session, *fields)
            want(f"{method} {url} {fields}", error(code, reason, wire.number, *more), reply)


def plays_exactly(lab):
    """A film with a pause, and then a part of it: every byte of heads, payloads and reports. Its
    groups have twelve pictures, so a seek to 5 s begins with picture 120."""
    film = lab.models["news.mpg"]
    with lab.serving([film.name], workers=1) as server:
        with Viewer(server.port, film, "x-Startup: 200", channels=(4, 7)) as viewer:
            viewer.start("Range: npt=0-", units=(0, 250))
            want("Range", "0.000-10.000", viewer.range)
            viewer.play(20_000)
            must("a pause in the middle", viewer.pause(), viewer.place)
            viewer.quiet(2)
            viewer.start()
            viewer.play()
            viewer.quiet(1)
            viewer.start("Range: npt=5-6", units=(120, 156))
            want("Range", "4.800-6.240", viewer.range)
            viewer.play()
            viewer.quiet(1)
            viewer.tear_down()


def writes_late_reader(lab):
    """Megabytes to a client that begins to read late arrive complete."""
    film = lab.models["large.mpg"]
    with lab.serving([film.name], workers=1, capacity=10 ** 9) as server:
        with Viewer(server.port, film, "x-Startup: 0", room=4096) as viewer:
            viewer.start(units=(0, len(film.units)))
            time.sleep(8)
            viewer.play()


def slot_lengths(lab):
    """Slots are as long as they were asked: of a second, and of a millisecond."""
    film = lab.models["small.mpg"]
    for slot, startup, least, most in ((360_000, 9, 5, PATIENCE), (360, 5000, 2, PATIENCE)):
        with lab.serving([film.name], workers=1, slot=slot) as server:
            with Viewer(server.port, film, f"x-Startup: {startup}") as viewer:
                begun = time.monotonic()
                viewer.start(units=(0, 2))
                viewer.play(patience=most)
                took = time.monotonic() - begun
        must(f"the last byte after {startup} slots of {slot}/360000 s, not in under {least} s",
             took >= least, f"{took:.1f} s")


def slots_of(film, buffer, delay):
    """The bytes of each slot of the film's plan, in slots of 40 ms."""
    return plan(0, *curves(film.sizes, film.time, 14_400, buffer, delay, 0, 0))


def first_overflow(slots, first, second, capacity):
    """Where two plays of these slots, begun at `first` and at `second`, don't fit together: the
    first such slot, what the first books there, and what the second asks; None where they fit."""
    for slot in range(second, second + len(slots)):
        booked = slots[slot - first] if slot - first < len(slots) else 0
        if booked + slots[slot - second] > capacity:
            return slot, booked, slots[slot - second]
    return None


def books_link(lab):
    """A second play that doesn't fit is refused by the first slot without room; a pause makes room.
    At the end the journal says so."""
    film, capacity, startup = lab.models["colours.mpg"], 100, 5000
    words = {"capacity": capacity, "workers": 2, "connections": 1, "startup": startup}
    with lab.serving([film.name], **words) as server:
        with Viewer(server.port, film) as one, Viewer(server.port, film) as other:
            one.start(units=(0, 250))
            refused = other.ask("PLAY", other.url, other.session)
            found = re.fullmatch(
                "RTSP/1.0 453 Not Enough Bandwidth\r\nCSeq: 2\r\nx-Slot: (\\d+)\r\n"
                "x-Booked: (\\d+)\r\nx-Asked: (\\d+)\r\n\r\n", refused)
            must("453 with slot, booked and asked", found, refused)
            must("a pause in the middle", one.pause(), one.place)
            other.start(units=(0, 250))
            one.tear_down()
            other.tear_down()
        want("status with connections=1", 0, server.child.wait(PATIENCE))
        slots, told = slots_of(film, 1_048_576, startup), tuple(map(int, found.groups()))
        is_journal(server.text(), slots, capacity, told)


def is_journal(text, slots, capacity, refused):
    """Whether the journal has the plays of `books_link`, in its order."""
    total = sum(slots)
    asked = f"play slot=(\\d+) slots={len(slots)} bytes={total}"
    found = re.fullmatch(
        f"0 seat=([12]) {asked} admitted start=(\\d+)\n"
        f"1 seat=([12]) {asked} overflow slot=(\\d+) booked=(\\d+) asked=(\\d+)\n"
        "2 seat=\\1 halt number=0 keep=\\d+ halted\n"
        f"3 seat=\\4 {asked} admitted start=\\d+\n"
        "4 seat=\\4 halt number=3 keep=\\d+ halted\n"
        "calendar from=\\d+\n(?:at \\d+ booked=\\d+\n)*end\nserved connections=2 entries=5\n",
        text)
    must("a journal of five entries", found, text)
    one, slot, start, other, second, *over = map(int, found.groups()[:8])
    want("the first play's start", slot + 1, start)
    must("two seats", one != other, text)
    begun = max(slot, second) + 1
    want("the first slot without room, what is booked there, and asked",
         first_overflow(slots, start, begun, capacity), tuple(over))
    want("the reply's slot, booked and asked", tuple(over), refused)


def looks_and_offers(lab):
    """What is booked, and at which start a play would fit."""
    film = lab.models["small.mpg"]
    kind = "Content-Type: text/parameters"
    with lab.serving([film.name], workers=2) as server, Viewer(server.port, film) as viewer:
        look = viewer.ask("GET_PARAMETER", viewer.url, kind, body="x-Booked\r\n")
        body = re.fullmatch(
            f"{OK}CSeq: 2\r\n{kind}\r\nContent-Length: (\\d+)\r\n\r\n"
            "(x-Now: 0\r\nx-Slot: \\d+\r\nx-Booked: 0\r\n)", look)
        must("a look", body and len(body[2]) == int(body[1]), look)
        offer = viewer.ask("GET_PARAMETER", viewer.url, viewer.session, "x-Wait: 3", body="x-Offer")
        body = re.fullmatch(
            f"{OK}CSeq: 3\r\n{kind}\r\nContent-Length: (\\d+)\r\n\r\n(x-Start: \\d+\r\n)", offer)
        must("an offer", body and len(body[2]) == int(body[1]), offer)
        other = viewer.ask("GET_PARAMETER", viewer.url, body="x-Other")
        want("another parameter", error(451, "Parameter Not Understood", 4), other)


def fills_journal(lab):
    """A journal of two entries has room for one play and its halt."""
    film = lab.models["colours.mpg"]
    with lab.serving([film.name], workers=2, journal=2, startup=5000) as server:
        with Viewer(server.port, film) as one, Viewer(server.port, film) as other:
            one.start(units=(0, 250))
            refused = other.ask("PLAY", other.url, other.session)
            want("PLAY with a full journal", error(
                503, "Service Unavailable", 2, "x-Entries: 1", "x-Open: 1"), refused)


def ends_bad_framing(lab):
    """A head without end and a body that is too long end the connection; media blocks don't."""
    head = b"OPTIONS * RTSP/1.0\r\n" + b"x-Field: value\r\n" * 1100
    body = b"GET_PARAMETER * RTSP/1.0\r\nCSeq: 1\r\nContent-Length: 65537\r\n\r\n"
    with lab.serving(["small.mpg"], workers=2) as server:
        for data in (head, body):
            with Wire(server.port) as wire:
                wire.socket.sendall(data)
                wire.end()
        with Wire(server.port) as wire:
            for _ in range(8):
                wire.socket.sendall(b"\r\n$\x07\xff\xff" + bytes(65535))
            want("OPTIONS after half a megabyte of media", OPTIONS, wire.ask("OPTIONS", "*"))


def listens(lab):
    """By default at 127.0.0.1 alone, with bind=all at every address."""
    with lab.serving(["small.mpg"], workers=1) as server:
        try:
            Wire(server.port, "127.0.0.2").socket.close()
        except ConnectionRefusedError:
            pass
        else:
            raise Failed("expected 127.0.0.2 refused without bind=all, it was accepted")
        with Wire(server.port) as wire:
            want("OPTIONS at 127.0.0.1", OPTIONS, wire.ask("OPTIONS", "*"))
    with lab.serving(["small.mpg"], workers=1, bind="all") as server:
        for host in ("127.0.0.2", "127.0.0.1"):
            with Wire(server.port, host) as wire:
                want(f"OPTIONS at {host} with bind=all", OPTIONS, wire.ask("OPTIONS", "*"))


def draws_identities(lab):
    """Each start of the server draws other sessions and sources, and so does each connection."""
    film, seen = lab.models["small.mpg"], []
    for _ in range(MANY_STARTS):
        with lab.serving([film.name], workers=1, journal=2) as server:
            for _ in range(2):
                with Viewer(server.port, film) as viewer:
                    seen.append((viewer.identity, viewer.source))
    for what, values in zip(("session ids", "sources"), zip(*seen)):
        want(f"different {what} of {MANY_STARTS} servers", 2 * MANY_STARTS, len(set(values)))


def port_in_use(lab):
    with socket.socket() as taken:
        taken.bind(("127.0.0.1", 0))
        taken.listen()
        port = taken.getsockname()[1]
        want("`serve` at a port in use", (7, b"", b"vodserve: GateFault\n"),
             lab.run("serve", "film=small.mpg", f"port={port}"))


def journal_to_full_device(lab):
    """A journal that can't be written is status 5, though all were served."""
    port = lab.ports.take()
    words = ("serve", "film=small.mpg", f"port={port}", "workers=1", "connections=1")
    with open("/dev/full", "wb") as full, ThreadPoolExecutor() as pool:
        ran = pool.submit(lab.run, *words, out=full)
        with until("a server that listens", lambda: connected(port)) as wire:
            want("OPTIONS", OPTIONS, wire.ask("OPTIONS", "*"))
        want("`serve` to a full device", (5, b"", b"vodserve: SinkFault\n"), ran.result())


def connected(port):
    try:
        return Wire(port)
    except ConnectionRefusedError:
        return None


def checks():
    calls = [
        ("the replies of an ordinary session", answers_words), ("refused requests", refuses),
        ("a film with a pause and a part of it", plays_exactly),
        ("a client that reads late", writes_late_reader), ("the length of slots", slot_lengths),
        ("a link without room for two", books_link), ("looks and offers", looks_and_offers),
        ("a full journal", fills_journal), ("bad framing", ends_bad_framing), ("bind", listens),
        ("identities of servers and connections", draws_identities),
        ("a port in use", port_in_use), ("a journal that can't be written", journal_to_full_device)]
    return [Check(name, call) for name, call in calls]
