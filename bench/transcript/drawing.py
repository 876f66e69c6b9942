"""Draws films, requests, and the events of connections."""
import random, re
from connections import LAST_SLOT
from films import Film
from scenes import Act, Scene

MOST_HEARD = 16_384
SEQUENCE, GROUP = bytes.fromhex("000001b316012010ffffe0a0"), bytes.fromhex("000001b800080040")
TRANSPORTS = ["RTP/AVP/TCP;unicast;interleaved=0-1"] * 5 + [
    "RTP/AVP/TCP", "rtp/avp/tcp;interleaved=7-3",
    "RTP/AVP/TCP;unicast;interleaved=0-1;mode=play;x=y",
    "RTP/AVP;unicast;client_port=5000-5001, RTP/AVP/TCP;interleaved=2",
    "RTP/AVP/TCP;interleaved=200-254 ;mode=\"PLAY\"", "RTP/AVP/TCP ; interleaved=254"]
BAD_TRANSPORTS = [
    "RTP/AVP;unicast;client_port=5000-5001", "RTP/AVP/TCP;multicast", "RTP/AVP/TCP;interleaved=7-7",
    "RTP/AVP/TCP;interleaved=255", "RTP/AVP/TCP;interleaved=255", "RTP/AVP/TCP;mode=record",
    "RTP/AVP/TCP;interleaved=1-2-3",
    "RTP/AVP/TCP;interleaved=-", "RTP/AVP/TCP;interleaved=0-256", "", ","]
ODD_RANGES = [
    "npt=-3", "npt=1e3-", "npt=0:60:00-", "smpte=0:00:05-", "npt=now", "npt=", "npt=NOW-",
    "npt=0 -", "npt=5-5", "x", "npt=0-;time=19970123T143720Z", "clock=19961108T143720.25Z-",
    "npt=0.1.2-",
    "npt=1234567890-", "npt=0-now", "npt=0-0", "npt=00:00:00-", "npt=0:0:0.5-", "npt=123456:00:00-"]
BODIES = [
    b"", b"", b"x-Booked", b"x-Booked\r\n", b"x-Booked\n", b"x-Offer", b"x-Offer\r\n", b"x-Offer"]
BAD_BODIES = [b"x-Booked\r", b"x-booked", b"x-Offer\n\n", b"y", b"x-Booked\r\nx-Offer", b"\n"]
VERSIONS = [
    b"RTSP/2.0", b"HTTP/1.0", b"RTSP/1.00", b"rtsp/1.0", b"RTSP/1.", b"RTSP/1.0 ", b"RTSP/01.0"]
SEQUENCES = [b"CSq:", b"CSeq: x", b"CSeq: 1a\r\nCSeq:", b"CSeq :", b"CSeq: 3\r\nCSeq:", b"CSeq: 0"]
ODD_LINES = [
    b" x: y", b"Content-Length: x", b"Content-Length: ", b": ", b"no colon", b"Require: funny",
    b"Proxy-Require: a b", b"Require:", b"Content-Length: 3", b"x: \x7f", b"x: \r", b"x: \t\xff"]
FIRST_LINES = [b"CSeq: 7", b"Content-Length: 70000", b"cseq: 7 RTSP/1.0"]


def drawn_film(rng, name):
    data, rate = b"", rng.choice([3, 3, 3, 1, 2, 4, 5, 6, 7, 8])
    for k in range(rng.randrange(1, 17)):
        if k == 0 or rng.randrange(8) == 0:
            data += SEQUENCE[:7] + bytes([0x10 | rate]) + SEQUENCE[8:]
        if (k == 0 and rng.randrange(4)) or rng.randrange(3) == 0:
            data += GROUP
        kind = 1 if k == 0 else rng.choice([1, 2, 3, 3, 4])
        bits = f"{rng.randrange(12):010b}{kind:03b}{'1' * 16}"
        bits += f"{rng.randrange(2)}{rng.randrange(1, 8):03b}" if kind in (2, 3) else ""
        bits += f"{rng.randrange(2)}{rng.randrange(1, 8):03b}" if kind == 3 else ""
        bits += "1" + "1" * (-(len(bits) + 1) % 8)
        data += b"\0\0\1\0" + int(bits, 2).to_bytes(len(bits) // 8, "big")
        for number in range(rng.randrange(1, 4)):
            long = rng.choice([1370, 1376, 1377, 2756, rng.randrange(3000)])
            length = rng.choice([0, 2, 20, 60, rng.randrange(200), rng.randrange(600), long])
            body = bytes(rng.randrange(128, 256) for _ in range(length))
            data += b"\0\0\1" + bytes([number + 1]) + body
    return Film(name, data + rng.choice([b"", b"\0\0\1\xb7"]))


class Drawer:
    """Draws the requests of one connection."""

    def __init__(self, rng, films, words, first_slot, far):
        self.rng, self.films, self.sequence, self.heard, self.far = rng, films, 0, first_slot, far
        self.film, self.identity = rng.choice(films), "%08x%08x" % tuple(words[:2])

    def message(self, method, url, headers, body=b""):
        rng = self.rng
        self.sequence += 1
        lines = [f"{method} {url} RTSP/1.0"]
        has_length = body or rng.randrange(9) == 0
        lengths = [("Content-Length", len(body))] if has_length else []
        all_headers = [("CSeq", self.sequence)] + headers + lengths
        if rng.randrange(4) == 0:
            rng.shuffle(all_headers)
        for name, value in all_headers:
            name = rng.choice([name, name, name.lower(), name.upper()])
            blanks, rest = rng.choice([" ", " ", "", "\t"]), rng.choice(["", "", "", " "])
            lines.append(f"{name}:{blanks}{value}{rest}")
        end = rng.choice(["\r\n", "\r\n", "\n"])
        return "".join(line + end for line in lines + [""]).encode("latin1") + body

    def url(self, film=None):
        rng, name = self.rng, (film or self.film).name
        scheme = rng.choice(["rtsp://h", "rtsp://127.0.0.1:8554", "RTSP://h:1"])
        return scheme + "/" + name + rng.choice(["", "", "/", "/video", "/video/"])

    def session(self):
        odd = [self.identity.upper(), self.identity + ";timeout=60", self.identity + " ; x"]
        return [("Session", self.rng.choice([self.identity] * 8 + odd))]

    def time(self):
        rng, film = self.rng, self.film
        whole = len(film.units) * film.time / 360_000
        units = [rng.randrange(len(film.units))]
        units += [k for k, unit in enumerate(film.units) if unit.starts_group]
        inside = [rng.random() * whole, rng.random() * whole]
        inside += [rng.choice(units) * film.time / 360_000 for _ in range(2)]
        time = rng.choice([0, whole, whole + 1] + inside)
        clock = f"0:00:{int(time) % 60}.{int(time * 1000) % 1000:03}"
        return rng.choice([
            f"{time:.3f}", f"{time:.9f}", f"{time:.12f}", f"{int(time)}", f"{int(time)}.", clock])

    def range(self):
        rng = self.rng
        start = rng.choice(["now", "0", "0.000", self.time(), self.time()])
        value = rng.choice(["npt", "npt", "NPT"]) + f"={start}-" + rng.choice(["", "", self.time()])
        odd = rng.choice(ODD_RANGES)
        return [("Range", value if rng.randrange(7) else odd)]

    def good_setup(self):
        headers = [("Transport", "RTP/AVP/TCP;unicast;interleaved=0-1")]
        startup = [("x-Startup", self.rng.randrange(6))]
        return self.message("SETUP", self.url(), headers + self.rng.choice([[], startup]))

    def setup(self):
        rng, headers, least = self.rng, [], max(self.film.sizes)
        transport = rng.choice(TRANSPORTS if rng.randrange(4) else BAD_TRANSPORTS)
        if rng.randrange(12):
            headers.append(("Transport", transport))
        if rng.randrange(3) == 0:
            odd = rng.choice([0, "x", (1 << 42) + 1, least - 1, "", 1])
            buffer = rng.choice([least, 2 * least, 3 * least + 7, 1 << 20, 1 << 42, odd])
            headers.append(("x-Buffer", buffer))
        if rng.randrange(2) == 0:
            odd = rng.choice([10_001, "a", -1, 1 << 64])
            headers.append(("x-Startup", rng.choice([0, 1, 2, 3, 5, 9, "002", odd])))
        if rng.randrange(15) == 0:
            headers += self.session()
        return self.message("SETUP", self.url(), headers)

    def play(self):
        ranges = self.rng.choice([[], self.range()])
        return self.message("PLAY", self.url(), self.session() + ranges)

    def resume(self):
        ranges = self.rng.choice([[], [], [("Range", "npt=now-")]])
        return self.message("PLAY", self.url(), self.session() + ranges)

    def get_parameter(self):
        rng = self.rng
        body = rng.choice(BODIES if rng.randrange(9) else BAD_BODIES)
        headers = self.session() if rng.randrange(4) else []
        if body.startswith(b"x-Offer") and rng.randrange(8):
            odd = rng.choice([256, "", "z", -1])
            headers.append(("x-Wait", rng.choice([0, 1, 3, 8, 20, 255, odd])))
        return self.message("GET_PARAMETER", self.url(), headers, body)

    def pause(self):
        return self.message("PAUSE", self.url(), self.session())

    def describe(self):
        url = self.url(self.rng.choice(self.films))
        return self.message("DESCRIBE", url, [("Accept", "application/sdp")])

    def options(self):
        return self.message("OPTIONS", self.rng.choice(["*", self.url()]), [])

    def teardown(self):
        return self.message("TEARDOWN", self.url(), self.session())

    def block(self):
        """An interleaved block of the client."""
        rng = self.rng
        size = rng.choice([0, 3, 40, rng.randrange(3000)])
        body = bytes(rng.choice([13, 10, 36, 65]) for _ in range(size))
        return b"$" + bytes([rng.choice([0, 1, 36])]) + size.to_bytes(2, "big") + body

    def odd(self):
        """A request that isn't as it should be."""
        rng = self.rng
        base = rng.choice([self.play, self.setup, self.get_parameter, self.pause, self.describe])()
        kind, at, byte = rng.randrange(13), rng.randrange(len(base)), bytes([rng.randrange(256)])
        if kind < 3:
            return base[:at] + (b"", byte, byte)[kind] + base[at + (kind != 1):]
        if kind == 3:
            return base.replace(b"RTSP/1.0", rng.choice(VERSIONS), 1)
        if kind < 6:
            return re.sub(rb"(?i)cseq:", rng.choice(SEQUENCES), base)
        if kind < 8:
            return re.sub(rb"(?i)cseq:", rng.choice(ODD_LINES) + b"\r\nCSeq:", base)
        if kind == 8:
            names = [b"none.mpg", b"a/../b", b".x", rng.choice(self.films).name.encode()]
            return base.replace(self.film.name.encode(), rng.choice(names), 1)
        if kind == 9:
            return base.replace(self.identity.encode(), b"0123456789abcdee")
        if kind == 10:
            method = rng.choice(["RECORD", "ANNOUNCE", "play", "SET_PARAMETER", "REDIRECT"])
            return self.message(method, self.url(), self.session())
        if kind == 11:
            return rng.choice(FIRST_LINES) + b"\r\n" + base
        return rng.choice([self.message("PLAY", self.url(), []), b"\0\xff" + base])

    def flood(self):
        """More than is taken, or just as much."""
        rng, kind = self.rng, self.rng.randrange(6)
        if kind == 0:
            return b"A" * rng.choice([16_383, 16_384, 20_000])
        if kind == 1:
            return b"OPTIONS * RTSP/1.0\r\nx: " + b"y" * 17_000
        if kind == 2:
            rest = b"\r\nCSeq: 1\r\n\r\n"
            filler = b"y" * (16_384 - 23 - len(rest) + rng.choice([-1, 0, 0, 0, 1]))
            return b"OPTIONS * RTSP/1.0\r\nx: " + filler + rest
        if kind == 3:
            length = rng.choice([65_536, 65_537, 10 ** 30])
            return self.message("GET_PARAMETER", self.url(), [("Content-Length", length)])
        if kind == 4:
            return b"".join(
                self.message("GET_PARAMETER", self.url(), [], bytes(65_536)) for _ in range(3))
        return self.get_parameter() + (b"$\0\xff\xff" + bytes(65_535)) * 3

    def ask(self, kinds):
        """Bytes of a request of one of these kinds, or of another kind now and then."""
        rng, others = self.rng, [self.get_parameter, self.get_parameter, self.block, self.options]
        if rng.randrange(90) == 0:
            return rng.choice([self.teardown, self.flood])()
        return rng.choice(kinds if rng.randrange(4) else others + [self.odd, self.setup])()

    def slots(self, count):
        rng, slots = self.rng, []
        for _ in range(count):
            self.heard += rng.choice([1] * 8 + [2, 3, 6])
            slot = max(0, self.heard - rng.choice([0] * 15 + [1, 4]))
            if self.far and rng.randrange(100) == 0:
                slot = rng.choice([LAST_SLOT, LAST_SLOT + 1, 2 ** 64 - 1])
            slots.append(("slot", slot))
        return slots

    def atoms(self):
        """Bytes and slots of this connection, in order."""
        rng = self.rng
        atoms = [("slot", self.heard)] if self.heard and rng.randrange(8) else []
        if rng.randrange(8):
            atoms.append(("bytes", rng.choice([self.good_setup] * 5 + [self.setup])()))
        if rng.randrange(3) == 0:
            kinds = [self.play] * 5 + [self.pause] * 4 + [self.describe, self.line_ends]
            for _ in range(rng.randrange(1, 15)):
                atoms += [("bytes", self.ask(kinds)), *self.slots(rng.choice([0, 0, 1, 1, 3]))]
            return atoms
        for _ in range(rng.randrange(1, 6)):
            play = self.ask([self.play, self.resume, self.resume])
            atoms += [("bytes", play), *self.slots(rng.choice([1, 2, 3, 5, 9]))]
            while rng.randrange(3) == 0:
                between = self.ask([self.get_parameter, self.block, self.options])
                atoms += [("bytes", between), *self.slots(rng.randrange(3))]
            if rng.randrange(5):
                atoms += [("bytes", self.ask([self.pause])), *self.slots(rng.choice([0, 0, 1, 2]))]
        return atoms

    def line_ends(self):
        return self.rng.choice([b"\r\n", b"\n", b"\r", b"\r\r\n\n"])


def cut(rng, atoms):
    """The events: pieces of the bytes, cut and joined anywhere, with slots between them."""
    events = []
    for what, value in atoms:
        if what == "slot":
            events.append((what, value))
            continue
        between = [rng.randrange(len(value) + 1) for _ in range(rng.choice([0, 0, 0, 1, 1, 3]))]
        places = sorted({0, len(value), *between})
        events += [("bytes", value[a:b]) for a, b in zip(places, places[1:])]
    for i in range(1, len(events)):
        if events[i][0] == "slot" and events[i - 1][0] == "bytes" and rng.randrange(3) == 0:
            events[i - 1], events[i] = events[i], events[i - 1]
    joined = []
    for event in events:
        if joined and event[0] == joined[-1][0] == "bytes" and rng.randrange(2):
            event = "bytes", joined.pop()[1] + event[1]
        joined.append(event)
    pieces = []
    for what, value in joined:
        if what == "slot":
            pieces.append((what, value))
        else:
            pieces += [(what, value[a:a + MOST_HEARD]) for a in range(0, len(value), MOST_HEARD)]
    return pieces + [("end", "")]


def drawn_act(rng, films, slot, far):
    """An act whose connections begin at a slot, and the slot at which it ends; slots far away come
    where they may."""
    words = []
    for _ in range(rng.choice([1, 1, 1, 2, 2, 3])):
        sequence = rng.choice([rng.randrange(2 ** 32), 65_530])
        timestamp = rng.choice([rng.randrange(2 ** 32), 2 ** 32 - 5000])
        words.append([rng.randrange(2 ** 32) for _ in range(3)] + [sequence, timestamp])
    drawers = [Drawer(rng, films, five, slot, far) for five in words]
    lists = [cut(rng, drawer.atoms()) for drawer in drawers]
    failing = []
    for _ in words:
        one = rng.choice([(rng.randrange(1, 16), 0), (0, rng.randrange(1, 30))])
        failing.append(one if rng.randrange(5) == 0 else (0, 0))
    order = [connection for connection, events in enumerate(lists) for _ in events]
    rng.shuffle(order)
    events = [(connection, lists[connection].pop(0)) for connection in order]
    return Act(words, failing, events), max(drawer.heard for drawer in drawers)


def drawn_scene(number):
    rng = random.Random(number)
    films = [drawn_film(rng, name) for name in ("a.mpg", "b", "c-1_x")[:rng.choice([1, 1, 2, 3])]]
    slot_units = rng.choice([14_400, 14_400, 14_400, 7_200, 20_000, 5_000])
    most = max(sum(film.sizes) // (len(film.sizes) + 2) + 60 for film in films)
    size = rng.choice([most // 2, most, 2 * most, 3 * most, 10 * most, 10 * most] + [2 ** 42] * 3)
    steps = [(0, size)]
    for k in range(rng.choice([0, 0, 1, 3])):
        later = rng.choice([0, size // 2, size, min(2 * size, 2 ** 42)])
        steps.append((rng.randrange(1, 30) + 40 * k, later))
    limit = rng.choice([2, 9, 20] + [1000] * 9)
    buffer, startup = rng.choice([1 << 20, 1 << 20, 1 << 20, 4000]), rng.choice([0, 1, 2, 4])
    acts, slot, count = [], 0, rng.randrange(1, 12)
    for number in range(count):
        act, slot = drawn_act(rng, films, slot, number + 1 == count)
        acts.append(act)
    return Scene(films, slot_units, buffer, startup, limit, steps, acts)
