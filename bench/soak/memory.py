"""What the server's memory is to be, from what was asked of it.

The server keeps all of this until it ends, in bytes:

- for each entry of the journal ENTRY, and for that of a play also its plan;
- for each answer of the shared calendar a client's receipt, RECEIPT;
- for each play that was admitted PLAY, and a copy of its plan;
- for each offer OFFER, TRIED for each start in its wait (and one more), and its plan;
- for each connection a report, CONNECTION.

A plan has SEGMENT for each of its segments. The planner's list of them grows by doubling, so it has
room for 4, 8, 16 and so on; a copy has room for just its segments. The sizes are those of the types
in the crates (`admission::Entry`, `session::Receipt`, `session::PlayNote`, `session::OfferNote`,
`early_start::Tried`, `conn::ConnReport`, `plan_cert::Segment`). Whatever is taken in a piece of its
own takes PIECE more of the C library, and a multiple of 16 bytes, at least 32. A list of reports
grows by doubling, and so is half as long again on average.
"""

ENTRY = 96
RECEIPT = 48
PLAY = 128
OFFER = 104
TRIED = 32
CONNECTION = 112 * 3 // 2
SEGMENT = 16
PIECE = 8


def piece(size):
    """What a piece of memory of so many bytes takes."""
    return max((size + PIECE + 15) // 16 * 16, 32) if size else 0


def copied_plan(segments):
    """What a copy of a plan takes."""
    return piece(SEGMENT * segments)


def planned(segments):
    """What a plan takes as the planner made it."""
    room = 4
    while room < segments:
        room *= 2
    return piece(SEGMENT * room)


class Account:
    """What one client asked of the server, and how many bytes of it the server keeps."""

    COUNTS = ("connections", "admitted", "refused", "looks", "offers", "segments")

    def __init__(self):
        self.kept = 0
        self.counts = dict.fromkeys(self.COUNTS, 0)
        self.open_connection()

    def open_connection(self):
        """Begins the report of the next connection."""
        self.receipts = self.plays = self.notes = 0

    def count(self, what, number=1):
        self.counts[what] += number

    def admit(self, segments):
        """A play: its entry and its halt's, a receipt of each, its note, and its plan twice."""
        self.count("admitted")
        self.count("segments", segments)
        self.receipts += 2
        self.plays += 1
        self.kept += 2 * ENTRY + planned(segments) + copied_plan(segments)

    def refuse(self, segments):
        """A play without room: its entry with its plan, and a receipt."""
        self.count("refused")
        self.count("segments", segments)
        self.receipts += 1
        self.kept += ENTRY + planned(segments)

    def look(self):
        self.count("looks")
        self.receipts += 1
        self.kept += ENTRY

    def offer(self, wait, segments):
        self.count("offers")
        self.count("segments", segments)
        self.notes += 1
        self.kept += piece(TRIED * (wait + 1)) + planned(segments)

    def close_connection(self):
        """The lists of a report are cut to their length, each in a piece of its own."""
        self.count("connections")
        self.kept += CONNECTION + piece(RECEIPT * self.receipts) + piece(PLAY * self.plays)
        self.kept += piece(OFFER * self.notes)
        self.open_connection()


def sum_of(accounts):
    """All counts together, and the bytes kept."""
    counts = {name: sum(it.counts[name] for it in accounts) for name in Account.COUNTS}
    return counts, sum(it.kept for it in accounts)


def entries(counts):
    return 2 * counts["admitted"] + counts["refused"] + counts["looks"]


def resident(pid):
    """The bytes of memory of its own that a process has now."""
    with open(f"/proc/{pid}/status", encoding="ascii") as lines:
        for line in lines:
            if line.startswith("RssAnon:"):
                return int(line.split()[1]) * 1024
    raise KeyError("RssAnon")
