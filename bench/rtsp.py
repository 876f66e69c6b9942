"""A small RTSP client over TCP with interleaved data (RFC 2326), of Python's standard library alone.

`Items` splits what a connection gave into replies and interleaved blocks, in the order they came. `Client` asks and
reads them over a socket that waits. `Media` turns the blocks of one session into the bytes of the film.

A payload of RTP has 12 bytes of RTP header (RFC 3550 section 5.1) and 4 bytes of video header (RFC 2250 section 3.4)
before the film's bytes.
"""

import socket
import struct
import time
from collections import namedtuple

Reply = namedtuple("Reply", "code reason fields body")
Block = namedtuple("Block", "channel data")

RTP_HEADS = 16


class Ended(Exception):
    """The server ended the connection."""


class TooLate(Exception):
    """Nothing more came in time."""


class Wrong(Exception):
    """What came isn't what RFC 2326 or the film allow."""


class Items:
    """Splits bytes into replies and blocks."""

    def __init__(self):
        self.bytes = bytearray()
        self.at = 0

    def put(self, data):
        if self.at:
            del self.bytes[: self.at]
            self.at = 0
        self.bytes += data

    def waiting(self):
        """How many bytes came that no whole item has taken yet."""
        return len(self.bytes) - self.at

    def take(self):
        """The next whole reply or block, or None where none is whole yet."""
        if self.waiting() < 4:
            return None
        if self.bytes[self.at] == 0x24:
            return self.take_block()
        return self.take_reply()

    def take_block(self):
        channel = self.bytes[self.at + 1]
        end = self.at + 4 + (self.bytes[self.at + 2] << 8 | self.bytes[self.at + 3])
        if end > len(self.bytes):
            return None
        data = bytes(self.bytes[self.at + 4 : end])
        self.at = end
        return Block(channel, data)

    def take_reply(self):
        if not self.bytes.startswith(b"RTSP", self.at):
            raise Wrong(f"neither reply nor block: {bytes(self.bytes[self.at:self.at + 40])!r}")
        end = self.bytes.find(b"\r\n\r\n", self.at)
        if end < 0:
            return None
        reply = read_head(bytes(self.bytes[self.at : end]).decode("ascii"))
        body = end + 4
        after = body + int(reply.fields.get("content-length", "0"))
        if after > len(self.bytes):
            return None
        self.at = after
        return reply._replace(body=bytes(self.bytes[body:after]))


def read_head(text):
    """The reply of a head's text, with no body yet. Names of fields are in lower case."""
    first, *lines = text.split("\r\n")
    version, code, reason = (first.split(" ", 2) + ["", ""])[:3]
    if version != "RTSP/1.0" or not code.isdigit():
        raise Wrong(f"no status line: {first!r}")
    fields = {}
    for line in lines:
        name, _, value = line.partition(":")
        fields.setdefault(name.strip().lower(), value.strip())
    return Reply(int(code), reason, fields, b"")


def write_request(method, url, number, fields=(), body=b""):
    """A request's bytes; `fields` are pairs of name and value."""
    lines = [f"{method} {url} RTSP/1.0", f"CSeq: {number}", *(f"{name}: {value}" for name, value in fields)]
    if body:
        lines.append(f"Content-Length: {len(body)}")
    return "\r\n".join(lines + ["", ""]).encode("ascii") + body


def control_of(description):
    """The control of the one video stream that a description (RFC 4566) has."""
    media = description.decode("ascii").partition("m=video")[2]
    for line in media.splitlines():
        if line.startswith("a=control:"):
            return line.removeprefix("a=control:")
    raise Wrong(f"no control in {description!r}")


def tuned(plain):
    """A socket that sends small requests at once."""
    plain.setsockopt(socket.IPPROTO_TCP, socket.TCP_NODELAY, 1)
    return plain


class Client:
    """One connection, and at most one session on it."""

    def __init__(self, port, name, host="127.0.0.1", patience=20, room=None):
        self.url = f"rtsp://{host}:{port}/{name}"
        self.number = 0
        self.session = None
        self.transport = None
        self.items = Items()
        # What came while a reply was waited for.
        self.blocks = []
        self.socket = socket.socket()
        if room:
            # The window of a connection is fixed as it is made, so its room is set before.
            self.socket.setsockopt(socket.SOL_SOCKET, socket.SO_RCVBUF, room)
        self.socket.settimeout(patience)
        self.socket.connect((host, port))
        tuned(self.socket)

    def __enter__(self):
        return self

    def __exit__(self, *_):
        self.socket.close()

    def send(self, method, fields=(), body=b"", url=None):
        """Sends a request with the next number, and with the session where there is one."""
        self.number += 1
        fields = list(fields)
        if self.session:
            fields.append(("Session", self.session))
        self.socket.sendall(write_request(method, url or self.url, self.number, fields, body))
        return self.number

    def next(self, patience=None):
        """The next reply or block. Raises TooLate where none came in `patience` seconds, and Ended at the end."""
        item = self.items.take()
        if item is not None:
            return item
        end = None if patience is None else time.monotonic() + patience
        whole = self.socket.gettimeout()
        try:
            while item is None:
                if end is not None:
                    self.socket.settimeout(max(end - time.monotonic(), 0.001))
                data = self.socket.recv(65536)
                if not data:
                    raise Ended(f"with {self.items.waiting()} bytes of an item that isn't whole")
                self.items.put(data)
                item = self.items.take()
        except TimeoutError:
            raise TooLate(f"{self.items.waiting()} bytes wait") from None
        finally:
            self.socket.settimeout(whole)
        return item

    def reply(self, number):
        """The reply of this number; blocks that come before it are kept in order."""
        while True:
            item = self.next()
            if isinstance(item, Block):
                self.blocks.append(item)
                continue
            if item.fields.get("cseq") != str(number):
                raise Wrong(f"reply {item} where that of {number} is waited for")
            return item

    def ask(self, method, fields=(), body=b"", url=None):
        return self.reply(self.send(method, fields, body, url))

    def must(self, method, fields=(), body=b"", url=None):
        """Asks for what has to be granted."""
        reply = self.ask(method, fields, body, url)
        if reply.code != 200:
            raise Wrong(f"{method} {url or self.url}: {reply.code} {reply.reason} {reply.fields}")
        return reply

    def set_up(self, fields=()):
        """DESCRIBE and SETUP; the description's text."""
        described = self.must("DESCRIBE", [("Accept", "application/sdp")])
        base = described.fields.get("content-base", self.url + "/")
        control = control_of(described.body)
        url = control if control.startswith("rtsp:") else base.rstrip("/") + "/" + control
        reply = self.must("SETUP", [("Transport", "RTP/AVP/TCP;unicast;interleaved=0-1"), *fields], url=url)
        self.session = reply.fields["session"].split(";")[0].strip()
        self.transport = reply.fields["transport"]
        return described.body.decode("ascii")

    def next_block(self, patience=None):
        """The next block; a reply that comes here answers nothing."""
        if self.blocks:
            return self.blocks.pop(0)
        item = self.next(patience)
        if isinstance(item, Reply):
            raise Wrong(f"a reply that nothing asked for: {item}")
        return item


class Media:
    """The film's bytes of a session, from blocks in order. Checks version, payload type, order and source of each."""

    def __init__(self, channel=0):
        self.channel = channel
        self.film = bytearray()
        self.sequence = None
        self.source = None
        # Bytes on the wire of each unit: packets up to the marker, and the report before them.
        self.units = []
        self.reports = 0
        self.packets = 0
        self.unit = 0

    def put(self, block):
        self.unit += 4 + len(block.data)
        if block.channel == self.channel:
            self.put_packet(block.data)
        elif block.channel == self.channel + 1:
            self.put_report(block.data)
        else:
            raise Wrong(f"a block on channel {block.channel}")

    def put_packet(self, data):
        first, second, sequence, _, source = struct.unpack_from(">BBHII", data)
        if first != 0x80 or second & 0x7F != 32 or len(data) <= RTP_HEADS:
            raise Wrong(f"no packet of MPEG video: {data[:20].hex()}")
        if self.sequence is not None and sequence != (self.sequence + 1) & 0xFFFF:
            raise Wrong(f"packet {sequence} comes after {self.sequence}")
        if self.source is not None and source != self.source:
            raise Wrong(f"the source changes from {self.source:08x} to {source:08x}")
        self.sequence = sequence
        self.source = source
        self.film += data[RTP_HEADS:]
        self.packets += 1
        if second & 0x80:
            self.units.append(self.unit)
            self.unit = 0

    def put_report(self, data):
        # A sender report (RFC 3550 section 6.4.1): 80, C8, and the source of the packets.
        if data[:2] != b"\x80\xc8":
            raise Wrong(f"no sender report: {data[:20].hex()}")
        self.reports += 1


def read_film(client, media, size, patience=10):
    """Reads blocks until the film has `size` bytes; raises TooLate where nothing comes for `patience` seconds."""
    while len(media.film) < size:
        media.put(client.next_block(patience))


def nothing_more(client, seconds):
    """Raises Wrong where a block comes in these seconds."""
    try:
        block = client.next_block(seconds)
    except TooLate:
        return
    raise Wrong(f"a block of {len(block.data)} bytes on channel {block.channel} that nothing should follow")


def first_difference(ours, theirs):
    """The first place where two byte strings differ, or None where they are equal."""
    if ours == theirs:
        return None
    shorter = min(len(ours), len(theirs))
    return next((k for k in range(shorter) if ours[k] != theirs[k]), shorter)
