#!/usr/bin/env python3
"""The plan of a film, beside that of the sizes of its units on the wire: bench/sizes.py [PROGRAM]

PROGRAM is the built vodserve (default: ../crates/vodserve/out/vodserve). The packets of each unit are cut here anew (RFC 2250,
and this project's rules: no packet above 1,380 bytes, a slice of at most so many is never cut, a longer one begins a packet of
its own, or follows the head directly) and their sizes added up: 20 bytes of heads for each, and a report of 52 before each
unit that starts a group. They are written as a trace, whose plan is to be that of the film in slots of one picture. Films are
those of `make kind=film` with 20,000 pictures of seed 5 and 500 of seeds 1 to 8, and small ones with long slices. Ends with
status 1 where something differs.
"""
import os, random, subprocess, sys, tempfile

MOST = 1380
TIMES = {1: 15015, 2: 15000, 3: 14400, 4: 12012, 5: 12000, 6: 7200, 7: 6006, 8: 6000}


def codes_of(film):
    """The places and kinds of the start codes; they don't overlap in these films."""
    codes, at = [], film.find(b"\0\0\1")
    while 0 <= at < len(film) - 3:
        codes.append((at, film[at + 3]))
        at = film.find(b"\0\0\1", at + 3)
    return codes


def units_of(film):
    """Of each unit the length of its head, those of its slices, and whether it starts a group."""
    units, head, slices, group, begun = [], None, [], True, 0
    for place, kind in codes_of(film) + [(len(film), None)]:
        if slices and (kind is None or kind in (0x00, 0xB3, 0xB8)):
            ends = slices[1:] + [place]
            units.append((slices[0] - begun, [end - start for start, end in zip(slices, ends)], group))
            slices, group, begun = [], False, place
        if kind == 0xB8:
            group = True
        if kind is not None and 0x01 <= kind <= 0xAF:
            slices.append(place)
    return units


def packets_of(head, slices):
    """The lengths of a unit's payloads."""
    done, now, closed = [], head, False
    for length in slices:
        alone = now == head and not done
        if length <= MOST:
            if closed or now + length > MOST:
                done.append(now)
                now, closed = 0, False
            now += length
        else:
            if not (alone and head < MOST):
                done.append(now)
                now = 0
            rest = length
            while now + rest > MOST:
                rest -= MOST - now
                done.append(MOST)
                now = 0
            now, closed = now + rest, True
    return done + [now]


def wire_size(unit):
    head, slices, group = unit
    packets = packets_of(head, slices)
    assert sum(packets) == head + sum(slices) and max(packets) <= MOST
    return sum(packets) + 20 * len(packets) + (52 if group else 0)


def drawn(random):
    """A film of one to twenty pictures with slices of any length."""
    film = bytes.fromhex("000001b316012013ffffe0a0")
    for k in range(random.randrange(1, 20)):
        film += bytes.fromhex("000001b800080040") if k % 6 == 0 else b""
        film += bytes.fromhex("00000100000ffff8") + bytes(random.randrange(0x40, 0x60) for _ in range(random.choice((0, 3, 1300))))
        for number in range(random.randrange(1, 6)):
            length = random.choice((0, 5, 300, 1376, 1377, 1380, 3000, random.randrange(6000)))
            film += b"\0\0\1" + bytes([number + 1]) + bytes(random.randrange(128, 256) for _ in range(length))
    return film


def printed(program, words):
    return subprocess.run([program, *words], capture_output=True)


def main():
    here = os.path.dirname(os.path.abspath(__file__))
    program = os.path.realpath(sys.argv[1] if len(sys.argv) > 1 else here + "/../crates/vodserve/out/vodserve")
    chance = random.Random(1)
    makes = [(seed, 500) for seed in range(1, 9)] + [(5, 20000)]
    films = [printed(program, ["make", "kind=film", f"seed={s}", f"pictures={n}"]).stdout for s, n in makes]
    films += [drawn(chance) for _ in range(200)]
    differing = 0
    with tempfile.TemporaryDirectory() as folder:
        os.chdir(folder)
        for film in films:
            units = units_of(film)
            open("film", "wb").write(film)
            open("trace", "w").write(" ".join(str(wire_size(unit)) for unit in units))
            rest = ["buffer=1000000"]
            one = printed(program, ["plan", "film=film", f"slot={TIMES[film[7] & 15]}", *rest])
            other = printed(program, ["plan", "trace=trace", *rest])
            if one.returncode != 0 or one.stdout != other.stdout:
                differing += 1
                print(f"a film of {len(units)} pictures differs: {one.stderr.decode()} {other.stderr.decode()}")
    print(f"{len(films)} films, {differing} differ")
    sys.exit(1 if differing else 0)


if __name__ == "__main__":
    main()
