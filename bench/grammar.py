#!/usr/bin/env python3
"""The film grammar as a plain program, beside `vodserve scan`: bench/grammar.py [PROGRAM] [FILMS]

PROGRAM is the built vodserve (default: ../crates/vodserve/out/vodserve). The grammar (ISO/IEC 11172-2) is computed here
anew from the whole list of a film's start codes, with no eye on speed, and gives the text or the refusal that `scan` should
print. Compared are two films whose texts were worked out by hand, all their cuts, each of their bytes left out or changed,
and FILMS (default 3,000) films of headers and slices drawn at random, but for those that begin as a system stream. Ends with
status 1 where something differs.
"""
import os, random, subprocess, sys, tempfile

HEADS = (0x00, 0xB3, 0xB8)
LENGTHS = {0xB3: 12, 0xB8: 8}
KINDS = {1: "I", 2: "P", 3: "B", 4: "D"}


def start_codes(film):
    return [(i, film[i + 3]) for i in range(len(film) - 3) if film[i:i + 3] == b"\0\0\1"]


def is_system_stream(film):
    """Whether the first start code is a pack's: then `scan` takes the video out of it, by other rules."""
    return [kind for _, kind in start_codes(film)][:1] == [0xBA]


def is_slice(kind):
    return 0x01 <= kind <= 0xAF


def unit_starts(codes):
    """The first code, and each head code that is the first head code after a slice."""
    starts, after_slice = [], False
    for k, (_, kind) in enumerate(codes):
        if k == 0 or (kind in HEADS and after_slice):
            starts.append(k)
        if kind in HEADS or is_slice(kind):
            after_slice = is_slice(kind)
    return starts


def picture_type(film, place):
    return film[place + 5] >> 3 & 7


def bad_header(film, codes, k, here):
    """What is wrong with the header of code k, where the next code or the film's end stands at `here`."""
    place, kind = codes[k]
    if kind not in HEADS:
        return None
    length = LENGTHS.get(kind, 8)
    if kind == 0 and here - place >= 8 and picture_type(film, place) in (2, 3):
        length = 9
    if here - place < length:
        return f"ShortHeader {place}"
    if kind == 0xB3:
        first = next(p for p, other in codes if other == 0xB3)
        rate = film[place + 7] & 15
        if not 1 <= rate <= 8 or rate != film[first + 7] & 15:
            return f"BadRate {place} {rate}"
    if kind == 0 and picture_type(film, place) not in KINDS:
        return f"BadType {place}"
    return None


def bad_code(codes, k):
    """What is wrong with code k itself."""
    place, kind = codes[k]
    if kind >= 0xB9:
        return f"SystemCode {place}"
    if kind == 0xB5:
        return f"Mpeg2 {place}"
    if k == 0 and kind != 0xB3:
        return "NoSequence"
    start = unit_starts(codes[:k + 1])[-1]
    before = codes[start:k]
    pictures = [p for p, other in before if other == 0]
    if kind in HEADS and pictures:
        return f"PictureWithoutSlices {pictures[0]}"
    if is_slice(kind) and not any(is_slice(other) for _, other in before):
        if not pictures:
            return f"HeadWithoutPicture {codes[start][0]}"
        if place - codes[start][0] > 1380:
            return f"HeadTooLong {codes[start][0]}"
    if kind == 0:
        groups = [i for i in range(k) if codes[i][1] == 0xB8]
        group = codes[groups[-1] if groups else 0:k + 1]
        if sum(other == 0 for _, other in group) > 1024:
            return f"GroupTooLong {place}"
    return None


def refusal(film):
    if not film:
        return "Empty"
    codes = start_codes(film)
    for k in range(len(codes)):
        fault = (bad_header(film, codes, k - 1, codes[k][0]) if k else None) or bad_code(codes, k)
        if fault:
            return fault
    if not codes:
        return "NoSequence"
    fault = bad_header(film, codes, len(codes) - 1, len(film))
    if fault:
        return fault
    last = codes[unit_starts(codes)[-1]:]
    pictures = [p for p, kind in last if kind == 0]
    if any(is_slice(kind) for _, kind in last):
        return None
    return f"PictureWithoutSlices {pictures[0]}" if pictures else f"HeadWithoutPicture {last[0][0]}"


def text(film):
    codes = start_codes(film)
    starts = unit_starts(codes)
    lines = [f"film bytes={len(film)} rate={film[codes[0][0] + 7] & 15} pictures={len(starts)}"]
    group = 0
    for number, start in enumerate(starts):
        last = number + 1 == len(starts)
        unit = codes[start:] if last else codes[start:starts[number + 1]]
        to = len(film) if last else codes[starts[number + 1]][0]
        slices = [p for p, kind in unit if is_slice(kind)]
        head = [kind for p, kind in unit if p < slices[0]]
        picture = next(p for p, kind in unit if kind == 0)
        if number == 0 or 0xB8 in head:
            group = number
        temporal = (film[picture + 4] << 8 | film[picture + 5]) >> 6
        lines.append(
            f"{number} {KINDS[picture_type(film, picture)]} show={group + temporal} from={unit[0][0]} head={slices[0]} to={to}"
            f" slices={len(slices)}" + " sequence" * (0xB3 in head) + " group" * (number == 0 or 0xB8 in head))
    return "\n".join(lines + ["end", ""])


SEQUENCE = bytes.fromhex("000001b316012013ffffe0a0")
GROUP = bytes.fromhex("000001b800080040")
PICTURE_I = bytes.fromhex("00000100000ffff8")
PICTURE_P = bytes.fromhex("000001000057fff880")
SLICE = bytes.fromhex("000001011234")
FILM_A = SEQUENCE + GROUP + PICTURE_I + SLICE
FILM_B = FILM_A + PICTURE_P + SLICE
UNIT_A = "0 I show=0 from=0 head=28 to=34 slices=1 sequence group\n"
BY_HAND = {
    FILM_A: "film bytes=34 rate=3 pictures=1\n" + UNIT_A + "end\n",
    FILM_B: "film bytes=49 rate=3 pictures=2\n" + UNIT_A + "1 P show=1 from=34 head=43 to=49 slices=1\nend\n",
}
PARTS = [SEQUENCE, GROUP, PICTURE_I, PICTURE_P, SLICE, SLICE, SLICE] + [bytes.fromhex(part) for part in (
    "00000100009ffff88080", "0000010000e7fff8", "000001000007fff8", "000001b316012014ffffe0a0", "000001b316012010ffffe0a0",
    "000001b316012013ffff", "00000100000fff", "000001000057fff8", "000001b8000800", "000001b5", "000001ba", "000001b7",
    "000001b277", "000001b0", "000001af55", "0000", "000001")] + [bytes(1353), bytes(1352)]


def films(count):
    for film in BY_HAND:
        yield film
        for at in range(len(film)):
            yield film[:at]
            yield film[:at] + film[at + 1:]
            for byte in (0x00, 0x01, 0x13, 0x57, 0xAF, 0xB2, 0xB3, 0xB5, 0xB7, 0xB8, 0xB9, 0xFF):
                yield film[:at] + bytes([byte]) + film[at + 1:]
    draw = random.Random(1)
    for _ in range(count):
        tail = [draw.choice(PARTS) for _ in range(draw.randrange(9))]
        yield draw.choice([b"", SEQUENCE, FILM_A, FILM_B]) + b"".join(tail)
    for stuffing in range(1350, 1356):
        yield FILM_A[:28] + bytes(stuffing) + SLICE
    picture = PICTURE_I + SLICE
    yield SEQUENCE + picture * 1024 + GROUP + picture * 1024
    yield SEQUENCE + picture * 1025


def main():
    here = os.path.dirname(os.path.abspath(__file__))
    program = os.path.abspath(sys.argv[1] if len(sys.argv) > 1 else here + "/../crates/vodserve/out/vodserve")
    seen, different = {}, 0
    with tempfile.TemporaryDirectory() as folder:
        for film in films(int(sys.argv[2]) if len(sys.argv) > 2 else 3000):
            if is_system_stream(film):
                continue
            fault = refusal(film)
            want = (3, "", f"vodserve: f: {fault}\n") if fault else (0, text(film), "")
            if film in BY_HAND:
                want = (0, BY_HAND[film], "")
                different += text(film) != BY_HAND[film]
            with open(folder + "/f", "wb") as out:
                out.write(film)
            run = subprocess.run([program, "scan", "film=f"], cwd=folder, capture_output=True, text=True)
            name = fault.split()[0] if fault else "accepted"
            seen[name] = seen.get(name, 0) + 1
            if (run.returncode, run.stdout, run.stderr) != want:
                different += 1
                print("differs:", film.hex()[:400], want, (run.returncode, run.stdout, run.stderr), sep="\n  ")
    print(f"{sum(seen.values())} films, {different} different:", ", ".join(f"{n} {seen[n]}" for n in sorted(seen)))
    return 1 if different else 0


if __name__ == "__main__":
    sys.exit(main())
