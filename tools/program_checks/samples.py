"""Films, traces and scripts that the program is given, made here without it.

`TINY` has one picture and `SMALL` two; both were put together by hand from the words of
ISO/IEC 11172-2. `generated_film` and `generated_trace` follow the description of `make`.
"""

from fair import chacha8

SEQUENCE = bytes.fromhex("000001b316012013ffffe0a0")
GROUP = bytes.fromhex("000001b800080040")
PICTURE_I = bytes.fromhex("00000100000ffff8")
PICTURE_P = bytes.fromhex("000001000057fff880")
SLICE = bytes.fromhex("000001011234")
TINY = SEQUENCE + GROUP + PICTURE_I + SLICE
SMALL = TINY + PICTURE_P + SLICE

# A pack header, a packet's start code and the byte that says that the packet has no time stamp
# (ISO/IEC 11172-1).
PACK = bytes.fromhex("000001ba2100010001800003")
VIDEO_PACKET = bytes.fromhex("000001e0")
NO_STAMP = b"\x0f"
SYSTEM_END = bytes.fromhex("000001b9")
VIDEO_END = bytes.fromhex("000001b7")

# Shares of a picture's type: the shortest body of a slice, and how many lengths may be drawn.
BODIES = {1: (300, 1200), 2: (60, 400), 3: (30, 200)}
VIDEO_BYTES_OF_A_PACKET = 2000


class Draws:
    """Numbers drawn from the generator of a number."""

    def __init__(self, number):
        self.words = chacha8(number)

    def draw(self, count):
        return next(self.words) % count


def picture_of(place):
    """Type and temporal reference of a picture by its place in its group of twelve."""
    if place == 0:
        return 1, 0
    if place == 11:
        return 2, 11
    return (2, place + 1) if place % 2 else (3, place - 1)


def picture_header(kind, temporal):
    bits, length = temporal << 19 | kind << 16 | 0xFFFF, 29
    if kind in (2, 3):
        bits, length = bits << 4 | 1, length + 4
    if kind == 3:
        bits, length = bits << 4 | 1, length + 4
    whole = 32 if kind == 1 else 40
    return b"\0\0\1\0" + (bits << whole - length).to_bytes(whole // 8, "big")


def generated_film(number, pictures):
    draws, film = Draws(number), bytearray()
    for place in range(pictures):
        kind, temporal = picture_of(place % 12)
        if place % 12 == 0:
            film += SEQUENCE + GROUP
        film += picture_header(kind, temporal)
        least, lengths = BODIES[kind]
        for code in range(1, 5):
            film += b"\0\0\1" + bytes([code])
            length = least + draws.draw(lengths)
            film += bytes(128 + draws.draw(128) for _ in range(length))
    return bytes(film + VIDEO_END)


def generated_trace(number, pictures):
    draws = Draws(number)
    sizes = ((200 + draws.draw(1800)) * (1 if k % 12 else 4) for k in range(pictures))
    return "".join(f"{size}\n" for size in sizes)


def in_packets(film, most=VIDEO_BYTES_OF_A_PACKET):
    """The film as a system stream of one video stream."""
    stream = b""
    for at in range(0, len(film), most):
        part = NO_STAMP + film[at:at + most]
        stream += PACK + VIDEO_PACKET + len(part).to_bytes(2, "big") + part
    return stream + SYSTEM_END


def plain_film(pictures, size):
    """A film of I pictures that have `size` bytes each, all but the headers in one slice."""
    body = bytes(size - len(PICTURE_I) - 4).replace(b"\0", b"\x9b")
    picture = PICTURE_I + b"\0\0\1\1" + body
    return SEQUENCE + GROUP + picture + (SEQUENCE + GROUP + picture) * (pictures - 1)


def with_slice(length):
    """The head of TINY and one slice of so many bytes."""
    return SEQUENCE + GROUP + PICTURE_I + b"\0\0\1\1" + b"\x9b" * (length - 4)
