"""The pieces of a stream, requests, the fields of their headers, and replies (RFC 2326)."""
import re

MOST_HEAD, MOST_BODY = 16_384, 65_536
REASONS = {
    200: "OK", 400: "Bad Request", 404: "Not Found", 451: "Parameter Not Understood",
    453: "Not Enough Bandwidth", 454: "Session Not Found", 455: "Method Not Valid In This State",
    457: "Invalid Range", 461: "Unsupported Transport", 500: "Internal Server Error",
    501: "Not Implemented", 503: "Service Unavailable", 505: "RTSP Version Not Supported",
    551: "Option Not Supported"}
METHODS = "OPTIONS, DESCRIBE, SETUP, PLAY, PAUSE, TEARDOWN, GET_PARAMETER"


def read_number(text):
    return int(text) if re.fullmatch(rb"[0-9]+", text) and int(text) < 2 ** 64 else None


def head_lines(head):
    """The lines of a request's head without their ends."""
    lines = head.split(b"\n")[:-1]
    return [line[:-1] if line.endswith(b"\r") else line for line in lines][:-1]


def loose_values(head, name):
    """The values of the lines with that name, also of lines that aren't of a header's form."""
    parts = [line.split(b":", 1) for line in head_lines(head)[1:] if b":" in line]
    return [part[1].strip(b" \t") for part in parts if part[0].lower() == name]


def next_piece(stream, at):
    """The piece of a stream at a place: what it is, where it ends, and where its head does.

    Or what is wrong there, and how many bytes of the stream show it."""
    if stream[at:at + 1] in (b"\r", b"\n"):
        return "skip", at + 1, at + 1
    if stream[at:at + 1] == b"$":
        end = at + 4 + int.from_bytes(stream[at + 2:at + 4], "big")
        return ("block", end, end) if at + 4 <= len(stream) and end <= len(stream) else None
    found = re.compile(rb"\n\r?\n").search(stream, at)
    if not found or found.end() - at > MOST_HEAD:
        return ("HeadTooLong", at + MOST_HEAD, None) if len(stream) - at >= MOST_HEAD else None
    lengths = loose_values(stream[at:found.end()], b"content-length")
    digits = lengths[0] if lengths and re.fullmatch(rb"[0-9]+", lengths[0]) else b"0"
    if int(digits) > MOST_BODY:
        return "BodyTooLong", found.end(), None
    end = found.end() + int(digits)
    return ("request", end, found.end()) if end <= len(stream) else None


def pieces_of(stream):
    """All pieces, where the rest begins, and the fault with which it begins, with the number of
    bytes that show it."""
    pieces, at = [], 0
    while at < len(stream):
        found = next_piece(stream, at)
        if not found:
            break
        what, end, head_end = found
        if what.endswith("TooLong"):
            return pieces, at, (what, end)
        pieces.append((what, at, end, head_end))
        at = end
    return pieces, at, None


class Request:
    def __init__(self, head, body):
        self.body, self.fault, lines = body, None, head_lines(head)
        values = loose_values(head, b"cseq")
        numbers = [read_number(value) for value in values]
        self.sequence = next((number for number in numbers if number is not None), None)
        line = re.fullmatch(rb"([A-Za-z0-9_-]+) ([\x21-\x7e]+) (RTSP/[0-9]+\.[0-9]+)", lines[0])
        url = line and re.fullmatch(rb"(?i:rtsp)://([^/]+)(/.*)?", line[2])
        if not line or not (url or line[2] == b"*"):
            self.fault = 400
            return
        self.method, self.authority, self.name = line[1].decode(), None, None
        if url:
            named = re.fullmatch(
                rb"/([A-Za-z0-9_-][A-Za-z0-9._-]{0,63})(/|/video|/video/)?", url[2] or b"")
            self.authority, self.name = url[1].decode("latin1"), named and named[1].decode()
        if line[3] != b"RTSP/1.0":
            self.fault = 505
            return
        self.headers = {}
        for text in lines[1:]:
            found = re.fullmatch(rb"([A-Za-z0-9_-]+):([\t\x20-\x7e\x80-\xff]*)", text)
            if not found:
                self.fault = 400
                return
            self.headers.setdefault(found[1].lower().decode(), found[2].strip(b" \t"))
        length = self.headers.get("content-length", b"0")
        if read_number(
            self.headers.get("cseq", b"")) is None or not re.fullmatch(rb"[0-9]+", length):
            self.fault = 400

    def get(self, name):
        return self.headers.get(name)


def read_transport(value):
    for alternative in value.split(b","):
        parts = [part.strip(b" \t").lower() for part in alternative.split(b";")]
        if parts[0] != b"rtp/avp/tcp" or b"multicast" in parts:
            continue
        if any(
            part.startswith(b"mode=") and part not in (b"mode=play", b'mode="play"')
            for part in parts):
            continue
        channels = next((part[12:] for part in parts if part.startswith(b"interleaved=")), b"0-1")
        numbers = [read_number(word) for word in channels.split(b"-")]
        if None in numbers or len(numbers) > 2:
            continue
        if len(numbers) == 1 and numbers[0] <= 254:
            return numbers[0], numbers[0] + 1
        if len(numbers) == 2 and max(numbers) <= 255 and numbers[0] != numbers[1]:
            return tuple(numbers)
    return None


def read_time(text):
    """Nanoseconds."""
    found = re.fullmatch(
        rb"(?:([0-9]{1,9})|([0-9]{1,5}):([0-5]?[0-9]):([0-5]?[0-9]))(?:\.([0-9]*))?", text)
    if not found:
        return None
    seconds = int(
        found[1]) if found[1] else int(found[2]) * 3600 + int(found[3]) * 60 + int(found[4])
    return seconds * 10 ** 9 + int((found[5] or b"").ljust(9, b"0")[:9])


def read_range(value):
    """From, which may be "now", and to, which may be None."""
    found = re.fullmatch(rb"(?i:npt)=([^-]*)-([^-]*)", value)
    if not found:
        return None
    start = "now" if found[1] == b"now" else read_time(found[1])
    end = read_time(found[2]) if found[2] else None
    return None if start is None or (found[2] and end is None) else (start, end)


def reply(code, sequence, fields=(), body=b""):
    lines = [f"RTSP/1.0 {code} {REASONS[code]}"] + (
        [] if sequence is None else [f"CSeq: {sequence}"])
    return "\r\n".join(
        lines + [f"{name}: {value}" for name, value in fields] + ["", ""]).encode("latin1") + body


def seconds(ms):
    return f"{ms // 1000}.{ms % 1000:03}"


def parameters(lines):
    body = "".join(line + "\r\n" for line in lines).encode()
    return (("Content-Type", "text/parameters"), ("Content-Length", len(body))), body
