"""Many sessions of one film at once, in one process with a selector, so that the clients cost little.

Each session is a connection that describes the film, sets it up and plays it from its beginning. The requests go out
one after another as the replies come; all sessions wait until each is set up, and play then. Each packet's bytes are
compared with the film at once, its number with the one before, and the time of each read is kept.
"""

import resource
import selectors
import socket
import sys
import time
from pathlib import Path

sys.path.insert(0, str(Path(__file__).resolve().parent.parent))
import rtsp

READ = 262144


class Session:
    """One connection, read when it is ready."""

    def __init__(self, port, name, film):
        self.film = film
        self.url = f"rtsp://127.0.0.1:{port}/{name}"
        self.number = 0
        self.asked = None
        self.session = None
        self.items = rtsp.Items()
        self.place = 0
        self.sequence = None
        # Bytes on the wire since the reply to PLAY, and at which time so many had come: pairs of time and bytes.
        self.wire = 0
        self.reads = []
        # The wire's bytes at the end of each unit, which are those of a report and of packets up to a marker.
        self.units = []
        self.fault = None
        self.socket = socket.create_connection(("127.0.0.1", port), timeout=30)
        rtsp.tuned(self.socket)
        self.socket.setblocking(False)

    def ask(self, method, url=None, fields=()):
        self.number += 1
        self.asked = method
        if self.session:
            fields = [*fields, ("Session", self.session)]
        # A request has a few hundred bytes and goes out while nothing else waits to be sent.
        self.socket.sendall(rtsp.write_request(method, url or self.url, self.number, fields))

    def done(self):
        return self.place >= len(self.film) or self.fault is not None

    def read(self, now):
        """Reads what has come; False where the connection has ended."""
        try:
            data = self.socket.recv(READ)
        except BlockingIOError:
            return True
        if not data:
            return False
        self.items.put(data)
        while True:
            self.packets()
            item = self.items.take()
            if item is None:
                break
            if isinstance(item, rtsp.Reply):
                self.answered(item)
            else:
                self.wire += 4 + len(item.data)
        if self.asked == "playing":
            # Bytes of a block that isn't whole have come too.
            self.reads.append((now, self.wire + self.items.waiting()))
        return True

    def packets(self):
        """Takes the whole packets that stand in front: one loop without a call, since there are very many."""
        data, at, film, place, sequence = self.items.bytes, self.items.at, self.film, self.place, self.sequence
        begun, end = at, len(data)
        while at + 4 <= end and data[at] == 0x24 and data[at + 1] == 0:
            after = at + 4 + (data[at + 2] << 8 | data[at + 3])
            if after > end:
                break
            number = data[at + 6] << 8 | data[at + 7]
            if sequence is not None and number != (sequence + 1) & 0xFFFF:
                raise rtsp.Wrong(f"packet {number} comes after {sequence}")
            sequence = number
            next_place = place + after - at - 4 - rtsp.RTP_HEADS
            if data[at + 4 + rtsp.RTP_HEADS : after] != film[place:next_place]:
                raise rtsp.Wrong(f"other bytes than the film's from {place} on")
            place = next_place
            if data[at + 5] & 0x80:
                self.units.append(self.wire + after - begun)
            at = after
        self.wire += at - begun
        self.items.at, self.place, self.sequence = at, place, sequence

    def answered(self, reply):
        if reply.code != 200 or reply.fields.get("cseq") != str(self.number):
            raise rtsp.Wrong(f"{self.asked}: {reply.code} {reply.reason} {reply.fields}")
        if self.asked == "DESCRIBE":
            base = reply.fields.get("content-base", self.url + "/").rstrip("/")
            control = rtsp.control_of(reply.body)
            url = control if control.startswith("rtsp:") else f"{base}/{control}"
            self.ask("SETUP", url, [("Transport", "RTP/AVP/TCP;unicast;interleaved=0-1")])
        elif self.asked == "SETUP":
            self.session = reply.fields["session"].split(";")[0].strip()
            self.asked = "ready"
        elif self.asked == "PLAY":
            self.asked = "playing"
        elif self.asked == "TEARDOWN":
            self.asked = "ended"


class Sessions:
    """All of them, and the watch over what the clients themselves cost."""

    def __init__(self, port, name, film, count):
        self.selector = selectors.DefaultSelector()
        self.all = []
        for _ in range(count):
            session = Session(port, name, film)
            self.all.append(session)
            self.selector.register(session.socket, selectors.EVENT_READ, session)
            session.ask("DESCRIBE")

    def step(self, patience):
        for key, _ in self.selector.select(patience):
            session = key.data
            try:
                alive = session.read(time.monotonic())
                if not alive and session.asked != "ended":
                    raise rtsp.Wrong(f"the connection ended at byte {session.place} of the film")
            except (rtsp.Wrong, OSError) as error:
                session.fault = str(error)
                alive = False
            if not alive:
                self.selector.unregister(session.socket)
                session.socket.close()

    def until(self, holds, patience):
        """Reads until it holds for each session that has no fault; False where that takes too long."""
        end = time.monotonic() + patience
        while not all(session.fault is not None or holds(session) for session in self.all):
            if time.monotonic() > end:
                return False
            self.step(0.2)
        return True

    def faults(self):
        return [session.fault for session in self.all if session.fault is not None]

    def play(self, seconds, watch):
        """Plays all of them through; `watch` is called as the plays begin and when all have the film."""
        if not self.until(lambda session: session.asked == "ready", 120):
            return ["not all sessions were set up in 120 seconds"]
        watch()
        for session in self.all:
            if session.fault is None:
                session.ask("PLAY")
        whole = self.until(Session.done, seconds)
        watch()
        if not whole:
            late = [session.place for session in self.all if not session.done()]
            return [*self.faults(), f"{len(late)} sessions don't have the film after {seconds:.0f} s, one has {late[0]}"]
        for session in self.all:
            if session.fault is None:
                session.ask("TEARDOWN")
        self.until(lambda session: session.asked == "ended", 10)
        return self.faults()

    def close(self):
        for session in self.all:
            session.socket.close()


def own_seconds():
    """Processor time of this process so far."""
    used = resource.getrusage(resource.RUSAGE_SELF)
    return used.ru_utime + used.ru_stime
