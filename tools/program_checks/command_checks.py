"""Commands that need no network: what they print, and with which status they end.

The texts were worked out by hand from the description of each command, or are computed by the plain
programs of bench/ and by `samples`.
"""

import re

from fair import Fair
from lab import Check, must, want_bytes
from samples import (
    NO_STAMP, PACK, PICTURE_I, SEQUENCE, SLICE, SMALL, SYSTEM_END, TINY, VIDEO_PACKET,
    generated_film, generated_trace, in_packets, with_slice)
from viewer import want

USAGE = "vodserve: usage\n"
PLAN_2 = "smooth 1\nslots 4\nbytes 12\nsegment 2 10\nsegment 2 2\nend\n"
SCAN_TINY = (
    "film bytes=34 rate=3 pictures=1\n"
    "0 I show=0 from=0 head=28 to=34 slices=1 sequence group\nend\n")
SCAN_SMALL = (
    "film bytes=49 rate=3 pictures=2\n"
    "0 I show=0 from=0 head=28 to=34 slices=1 sequence group\n"
    "1 P show=1 from=34 head=43 to=49 slices=1\nend\n")
DAY_1 = """0 seat=0 play slot=0 slots=3 bytes=7 admitted start=1
1 seat=1 play slot=0 slots=3 bytes=7 overflow slot=3 booked=3 asked=3
slot 1 sent=2 booked=2
slot 2 sent=2 booked=2
2 seat=1 play slot=2 slots=3 bytes=7 admitted start=3
slot 3 sent=5 booked=5
3 seat=0 halt number=0 keep=7 halted
4 seat=1 halt number=2 keep=2 halted
calendar from=2
at 2 booked=2
at 3 booked=5
end
"""
DAY_2 = """0 seat=0 play slot=0 slots=4 bytes=141 admitted start=1
slot 1 sent=35 booked=35
1 seat=0 halt number=0 keep=52 halted
slot 2 sent=17 booked=17
slot 3 sent=0 booked=0
2 seat=0 play slot=3 slots=4 bytes=89 admitted start=4
slot 4 sent=22 booked=22
3 seat=0 halt number=2 keep=22 halted
calendar from=3
at 4 booked=22
end
"""
DAY_3 = """0 seat=0 play slot=0 slots=3 bytes=7 admitted start=1
refused journal entries=1 open=1
1 seat=0 halt number=0 keep=0 halted
calendar from=0
end
"""
DAY_4 = """0 seat=0 look slot=7 looked now=0 at=7 booked=0
offer start=1 tried=0
calendar from=0
end
"""

FILES = {
    "t1.txt": b"10 10 10 10 10", "t2.txt": b"1 9 1 1", "t3.txt": b"1 1 5\n",
    "t4.txt": b"1 1 1 1 6 6", "t5.txt": b"9\t1\r\n", "t6.txt": b"3 9", "none.txt": b"",
    "bad.txt": b"1 x", "c2.txt": PLAN_2.encode(),
    "c2w.txt": b"smooth 1\nslots 4\nbytes 12\nsegment 1 1\nsegment 1 9\nsegment 2 2\nend\n",
    "c3.txt": b"smooth 1\nslots 3\nbytes 7\nsegment 3 7\nend\n",
    "c3e.txt": b"smooth 1\nslots 3\nbytes 7\nsegment 1 2\nsegment 1 2\nsegment 1 3\nend\n",
    "c3s.txt": b"smooth 1\nslots 3\nbytes 7\nsegment 3 7\n",
    "tiny.mpg": TINY, "small.mpg": SMALL, "empty.mpg": b"",
    "long.mpg": with_slice(1381), "full.mpg": with_slice(1370),
    "day1.txt": b"play 0 trace t3.txt 7 0\nplay 1 trace t3.txt 7 0\nslot 1\nslot 2\n"
    b"play 1 trace t3.txt 7 0\nslot 3\n",
    "day2.txt": b"play 0 film small.mpg 1048576 2\nslot 1\npause 0\nslot 2\nslot 3\nresume 0\n"
    b"slot 4",
    "day3.txt": b"play 0 trace t3.txt 7 0\r\nplay 1 trace t3.txt 7 0\r\n\r\npause 0\r\n",
    "day4.txt": b"look 7\noffer 0 trace t3.txt 7 0 255\n",
    "day5.txt": b"look 1\nlook x\n", "day6.txt": b"play 0 film none.mpg 7 0\n",
    "f1.mpg": TINY[:28], "f2.mpg": TINY[:26], "f3.mpg": TINY[:12],
    "f4.mpg": TINY[:12] + b"\0\0\1\xb5", "f5.mpg": TINY[12:],
    "f6.mpg": TINY[:7] + b"\x10" + TINY[8:], "f7.mpg": TINY[:28] + bytes(1353) + SLICE,
    "f8.mpg": SEQUENCE + (PICTURE_I + SLICE) * 1025, "f9.mpg": TINY + b"\0\0\1\xc0",
    "f10.mpg": TINY[:25] + b"\x3f" + TINY[26:],
    "s1.mpg": in_packets(TINY), "s2.mpg": in_packets(SMALL),
    "s3.mpg": PACK + VIDEO_PACKET + b"\0\x2b\xff\xff\x60\0" + PACK[4:9] + TINY + SYSTEM_END,
    "s4.mpg": PACK[:4] + b"\x44" + PACK[5:] + VIDEO_PACKET,
    "s5.mpg": PACK + VIDEO_PACKET + b"\0\1\0", "s6.mpg": PACK + b"\x41",
    "s7.mpg": PACK + VIDEO_PACKET + b"\0\x23" + NO_STAMP,
    "s8.mpg": PACK + VIDEO_PACKET + b"\0\x34" + b"\xff" * 17 + NO_STAMP + TINY,
}


def plan_text(slots, total, *segments):
    lines = ["smooth 1", f"slots {slots}", f"bytes {total}"]
    return "\n".join(lines + [f"segment {n} {size}" for n, size in segments] + ["end", ""])


# The command line, the status, and what is printed: to the output with 0 and 1, else as the cause
# on the error stream.
TEXTS = [
    ("plan trace=t1.txt buffer=10 startup=0", 0, plan_text(5, 50, (5, 50))),
    ("plan startup=0 buffer=9 trace=t2.txt", 0, PLAN_2),
    ("plan trace=t3.txt buffer=7 startup=0", 0, plan_text(3, 7, (3, 7))),
    ("plan trace=t4.txt buffer=6 startup=0", 0, plan_text(6, 16, (5, 10), (1, 6))),
    ("plan trace=t5.txt buffer=20 startup=2", 0, plan_text(4, 10, (3, 9), (1, 1))),
    ("plan trace=t6.txt buffer=9 startup=0", 0, plan_text(2, 12, (2, 12))),
    ("plan film=small.mpg startup=2", 0, plan_text(4, 141, (3, 106), (1, 35))),
    ("plan film=s2.mpg startup=2", 0, plan_text(4, 141, (3, 106), (1, 35))),
    ("plan film=tiny.mpg startup=0 slot=360", 0, plan_text(1, 106, (1, 106))),
    ("plan film=long.mpg startup=0", 0, plan_text(1, 1501, (1, 1501))),
    ("plan film=full.mpg startup=0", 0, plan_text(1, 1490, (1, 1490))),
    ("check trace=t2.txt buffer=9 startup=0 cert=c2.txt", 0, "least\n"),
    ("check trace=t2.txt buffer=9 startup=0 cert=c2w.txt", 1, "refused RiseOffUpper 0\n"),
    ("check trace=t3.txt buffer=7 startup=0 cert=c3.txt", 0, "least\n"),
    ("check trace=t3.txt buffer=7 startup=0 cert=c3e.txt", 1, "refused EqualSlopes 0\n"),
    ("check trace=t3.txt buffer=7 startup=0 cert=c2.txt", 1, "refused WrongLength\n"),
    ("check trace=t3.txt buffer=7 startup=0 cert=c3s.txt", 3, "c3s.txt: BadCert 5"),
    ("scan film=tiny.mpg", 0, SCAN_TINY),
    ("scan film=small.mpg", 0, SCAN_SMALL),
    ("scan film=s1.mpg", 0, SCAN_TINY),
    ("scan film=s3.mpg", 0, SCAN_TINY),
    ("day script=day1.txt capacity=5", 0, DAY_1),
    ("day script=day2.txt", 0, DAY_2),
    ("day script=day3.txt journal=2 capacity=0:100,5:0", 0, DAY_3),
    ("day script=day4.txt", 0, DAY_4),
    ("plan trace=gone.txt", 3, "gone.txt: NotFound"),
    ("plan trace=t6.txt buffer=8 startup=0", 3, "t6.txt: BufferTooSmall 1 9 9"),
    ("plan trace=none.txt", 3, "none.txt: NoPictures"),
    ("plan trace=bad.txt", 3, "bad.txt: BadTrace 2"),
    ("scan film=empty.mpg", 3, "empty.mpg: Empty"),
    ("scan film=f1.mpg", 3, "f1.mpg: PictureWithoutSlices 20"),
    ("scan film=f2.mpg", 3, "f2.mpg: ShortHeader 20"),
    ("scan film=f3.mpg", 3, "f3.mpg: HeadWithoutPicture 0"),
    ("scan film=f4.mpg", 3, "f4.mpg: Mpeg2 12"),
    ("scan film=f5.mpg", 3, "f5.mpg: NoSequence"),
    ("scan film=f6.mpg", 3, "f6.mpg: BadRate 0 0"),
    ("scan film=f7.mpg", 3, "f7.mpg: HeadTooLong 0"),
    ("scan film=f8.mpg", 3, f"f8.mpg: GroupTooLong {12 + 14 * 1024}"),
    ("scan film=f9.mpg", 3, "f9.mpg: SystemCode 34"),
    ("scan film=f10.mpg", 3, "f10.mpg: BadType 20"),
    ("scan film=s4.mpg", 3, "s4.mpg: NotPack 0"),
    ("scan film=s5.mpg", 3, "s5.mpg: BadPacket 12"),
    ("scan film=s6.mpg", 3, "s6.mpg: BadCode 12"),
    ("scan film=s7.mpg", 3, "s7.mpg: Truncated 12"),
    ("scan film=s8.mpg", 3, "s8.mpg: BadPacket 12"),
    ("day script=day5.txt", 3, "day5.txt: BadScript 2"),
    ("day script=day6.txt", 3, "none.mpg: NotFound"),
    ("serve film=small.mpg film=gone.mpg", 3, "gone.mpg: NotFound"),
    ("serve film=huge.mpg", 3, "huge.mpg: FilmTooLarge"),
    # A directory can be found, and not read, also by the superuser.
    ("scan film=folder", 4, "folder: StoreFault"),
    ("plan trace=folder", 4, "folder: StoreFault"),
    ("check trace=t2.txt buffer=9 startup=0 cert=folder", 4, "folder: StoreFault"),
    ("day script=folder", 4, "folder: StoreFault"),
    ("serve film=folder", 4, "folder: StoreFault"),
]

NO_MEANING = """

play
plan
plan buffer=10
plan trace=t1.txt film=tiny.mpg
plan trace=t1.txt slot=14400
plan trace=t1.txt trace=t1.txt
plan trace=t1.txt buffer=0
plan trace=t1.txt buffer=4398046511105
plan trace=t1.txt startup=10001
plan trace=t1.txt startup=
plan trace=t1.txt startup=+1
plan trace=.t1.txt
plan trace=a/t1.txt
plan film=tiny.mpg slot=359
plan film=tiny.mpg slot=360001
check trace=t1.txt
scan film=tiny.mpg more
scan film=tiny.mpg=
make kind=film seed=1
make kind=movie seed=1 pictures=1
make kind=film seed=18446744073709551616 pictures=1
make kind=film seed=1 pictures=100001
day script=day1.txt capacity=0
day script=day1.txt capacity=1:5
day script=day1.txt capacity=0:5,0:6
day script=day1.txt journal=1
fair seed=1 plays=0
serve
serve film=tiny.mpg film=tiny.mpg
serve film=tiny.mpg port=0
serve film=tiny.mpg port=65536
serve film=tiny.mpg bind=any
serve film=tiny.mpg bind=127.0.0.1
serve film=tiny.mpg workers=0
serve film=tiny.mpg workers=257
serve film=tiny.mpg journal=1048577
watch
watch film=tiny.mpg workers=1
--help --version
--help plan
-h"""

COMMANDS = {
    "plan": "trace film buffer startup slot", "check": "trace film cert buffer startup slot",
    "scan": "film", "make": "kind seed pictures", "day": "script capacity journal slot",
    "fair": "seed plays capacity", "watch": "film port buffer startup slot",
    "serve": "film port bind capacity buffer startup slot journal workers connections",
}


def prints(lab, line, status, text):
    """Whether a command line ends with this status and prints this text and nothing else."""
    ran = lab.run(*line.split())
    out, err = (text, "") if status < 2 else ("", f"vodserve: {text}\n")
    want(f"`{line}`", (status, out, err), (ran.status, ran.out.decode(), ran.err.decode()))


def has_no_meaning(lab, line):
    ran = lab.run(*line.split())
    want(f"`{line}`", (2, b"", USAGE.encode()), ran)


def isnt_utf8(lab):
    for words in ([b"scan", b"film=\xff.mpg"], [b"\xfe"]):
        want(f"words {words}", (2, b"", USAGE.encode()), lab.run(*words))


def helps(lab):
    """The text of --help: each command has its keys, the table has the defaults."""
    ran = lab.run("--help")
    want("`--help`: status and error stream", (0, b""), (ran.status, ran.err))
    text = ran.out.decode()
    for command, keys in COMMANDS.items():
        found = re.findall(rf"(?m)^  {command} (.*(?:\n {{8}}\[.*)*)", text)
        told = set(re.findall(r"\b([a-z]+)=", " ".join(found)))
        want(f"`--help`: keys of {command}", set(keys.split()), told)
    defaults = {"buffer": "1048576", "startup": "25", "capacity": "50000", "port": "8554",
                "bind": "local", "slot": "14400", "journal": "65536", "workers": "32",
                "connections": "0"}
    for key, value in defaults.items():
        lines = re.findall(rf"(?m)^ +{key} .*$", text)
        must(f"`--help`: a line of {key} with its default {value} at its end",
             any(line.split()[-1] == value for line in lines), lines)
    must("`--help`: lines of at most 80 columns", max(map(len, text.split("\n"))) <= 80, text)


def tells_version(lab):
    ran = lab.run("--version")
    must("`--version`: a name and three numbers, status 0",
         ran.status == 0 and not ran.err and re.fullmatch(rb"vodserve \d+\.\d+\.\d+\n", ran.out),
         ran)


def makes_film(lab):
    films = [(1, 250, lab.files["news.mpg"])]
    films += [(n, count, generated_film(n, count)) for n, count in ((0, 1), (2 ** 64 - 1, 13))]
    for number, pictures, film in films:
        ran = lab.run("make", "kind=film", f"seed={number}", f"pictures={pictures}")
        want("`make kind=film`: status", (0, b""), (ran.status, ran.err))
        want_bytes(f"`make kind=film seed={number}`", film, ran.out)


def makes_trace(lab):
    ran = lab.run("make", "kind=trace", "seed=7", "pictures=300")
    want("`make kind=trace`", (0, generated_trace(7, 300).encode(), b""), ran)


def makes_system(lab):
    ran = lab.run("make", "kind=system", "seed=1", "pictures=30")
    want("`make kind=system`: status", (0, b""), (ran.status, ran.err))
    want_bytes("`make kind=system`", in_packets(generated_film(1, 30)), ran.out)


def plays_fair(lab):
    for number, plays, capacity in ((7, 150, 50_000), (3, 100, 9_000)):
        words = ("fair", f"seed={number}", f"plays={plays}", f"capacity={capacity}")
        line = Fair(number, capacity).line(plays)
        want(" ".join(words), (0, line.encode(), b""), lab.run(*words))


def cannot_write(lab):
    """A full device: status 5, and its line."""
    lines = (
        "plan trace=t2.txt buffer=9 startup=0", "check trace=t2.txt buffer=9 startup=0 cert=c2.txt",
        "scan film=tiny.mpg", "make kind=trace seed=1 pictures=100000", "day script=day1.txt",
        "fair seed=1 plays=1", "--help", "--version")
    with open("/dev/full", "wb") as full:
        for line in lines:
            ran = lab.run(*line.split(), out=full)
            want(f"`{line}` to a full device", (5, b"vodserve: SinkFault\n"), (ran.status, ran.err))


def lacks_memory(lab):
    """A journal of a million entries takes about 100 MB, which isn't allowed; one of four fits."""
    limit = f"-v {64 * 1024}"
    small = lab.run("day", "script=day4.txt", "journal=4", limits=limit)
    want("`day journal=4` with 64 MB", (0, DAY_4.encode(), b""), small)
    for line in ("day script=day4.txt journal=1048576", "serve film=tiny.mpg journal=1048576"):
        port = [f"port={lab.ports.take()}"] if line.startswith("serve") else []
        ran = lab.run(*line.split(), *port, limits=limit)
        want(f"`{line}` with 64 MB", (6, b"", b"vodserve: NoMemory\n"), ran)


def checks():
    named = [(f"`{row[0]}`", lambda lab, row=row: prints(lab, *row)) for row in TEXTS]
    named += [
        (f"`{line}` has no meaning", lambda lab, line=line: has_no_meaning(lab, line))
        for line in NO_MEANING.split("\n")[1:]]
    named += [
        ("words that aren't UTF-8", isnt_utf8), ("--help", helps), ("--version", tells_version),
        ("make kind=film", makes_film), ("make kind=trace", makes_trace),
        ("make kind=system", makes_system), ("fair", plays_fair),
        ("output that can't be written", cannot_write), ("too little memory", lacks_memory)]
    return [Check(name, call) for name, call in named]
