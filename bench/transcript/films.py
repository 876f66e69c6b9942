"""Films by their start codes, and the frames and reports of a run (RFC 2250, 2326, 3550)."""
import bisect
from days import TIMES, is_slice, packets, unit_starts


class Unit:
    """A picture with its headers and slices."""

    def __init__(self, film, codes, end, before, group):
        slices = [place for place, kind in codes if is_slice(kind)]
        heads = [kind for place, kind in codes if place < slices[0]]
        picture = next(place for place, kind in codes if kind == 0)
        bits = int.from_bytes(film[picture + 4:picture + 9], "big")
        self.temporal, self.kind = bits >> 30, bits >> 27 & 7
        self.has_sequence, self.starts_group = 0xB3 in heads, 0xB8 in heads or before == 0
        self.group = before if self.starts_group else group
        self.presentation = self.group + self.temporal
        forward = bits >> 7 & 15 if self.kind in (2, 3) else 0
        backward = bits >> 3 & 15 if self.kind == 3 else 0
        self.vectors = backward << 4 | forward
        self.start, self.head_end, self.end = codes[0][0], slices[0], end
        self.slices = slices
        lengths = [b - a for a, b in zip(slices, slices[1:] + [end])]
        self.packets, at = [], self.start
        for length in packets(self.head_end - self.start, lengths):
            self.packets.append((at, at + length))
            at += length
        assert at == end
        self.wire = sum(20 + b - a for a, b in self.packets) + (52 if self.starts_group else 0)


class Film:
    def __init__(self, name, data):
        self.name, self.data = name, data
        codes, at = [], data.find(b"\0\0\1")
        while 0 <= at < len(data) - 3:
            codes.append((at, data[at + 3]))
            at = data.find(b"\0\0\1", at + 1)
        starts = unit_starts(codes) + [len(codes)]
        self.units = []
        for a, b in zip(starts, starts[1:]):
            end = codes[b][0] if b < len(codes) else len(data)
            self.units.append(
                Unit(
                    data, codes[a:b], end, len(self.units),
                    self.units[-1].group if self.units else 0))
        self.time = TIMES[data[next(p for p, kind in codes if kind == 0xB3) + 7] & 15]
        self.sizes = [unit.wire for unit in self.units]

    def frame(self, unit, piece, channel, sequence, base, source):
        a, b = piece
        begins = a in unit.slices or (a == unit.start and b > unit.head_end)
        ends = b in unit.slices[1:] + [unit.end]
        has_sequence = a == unit.start and unit.has_sequence
        flags = has_sequence << 13 | begins << 12 | ends << 11
        video = unit.temporal << 16 | flags | unit.kind << 8 | unit.vectors
        stamp = (base + unit.presentation * self.time // 4) % 2 ** 32
        marker = 128 if b == unit.end else 0
        return (
            bytes([0x24, channel]) + (16 + b - a).to_bytes(2, "big") + bytes([0x80, marker | 32])
            + (sequence % 2 ** 16).to_bytes(2, "big") + stamp.to_bytes(4, "big")
            + source.to_bytes(4, "big") + video.to_bytes(4, "big") + self.data[a:b])

    def report(self, unit, control, base, source, frames, octets):
        ticks = unit.presentation * self.time
        time = ticks // 360_000 << 32 | ticks % 360_000 * 2 ** 32 // 360_000
        stamp = (base + ticks // 4) % 2 ** 32
        return (
            bytes([0x24, control, 0, 0x30, 0x80, 0xC8, 0, 6]) + source.to_bytes(4, "big")
            + time.to_bytes(8, "big") + stamp.to_bytes(4, "big")
            + (frames % 2 ** 32).to_bytes(4, "big") + (octets % 2 ** 32).to_bytes(4, "big")
            + bytes([0x81, 0xCA, 0, 4]) + source.to_bytes(4, "big") + b"\x01\x08vodserve\0\0")


class Run:
    """The frames and reports of a film's units, sent after `offset` bytes of earlier runs."""

    def __init__(self, film, first, end, channels, words, offset, frames, octets):
        self.film, self.first, self.end, self.offset = film, first, end, offset
        self.blocks = []
        for unit in film.units[first:end]:
            if unit.starts_group:
                self.blocks.append(
                    (film.report(unit, channels[1], words[4], words[2], frames, octets), 0))
            for piece in unit.packets:
                block = film.frame(unit, piece, channels[0], words[3] + frames, words[4], words[2])
                self.blocks.append((block, len(block) - 16))
                frames, octets = frames + 1, octets + len(block) - 16
        self.bytes = b"".join(block for block, _ in self.blocks)
        self.ends = [0]
        for block, _ in self.blocks:
            self.ends.append(self.ends[-1] + len(block))

    def boundary(self, at):
        return self.ends[bisect.bisect_left(self.ends, at)]

    def counts(self, at):
        """The frames that end within the first `at` bytes, and their octets."""
        whole = [
            octets for end, (_, octets) in zip(self.ends[1:], self.blocks) if end <= at and octets]
        return len(whole), sum(whole)
