"""Peers that keep a server waiting, a moment without file descriptors, and 250 sessions at once.

A connection to which nothing was sent within 15 s of its accept is given up. One that was answered
may be silent for long. All of this takes its time, and is to run side by side.
"""

import contextlib
import resource
import select
import time

from lab import PATIENCE, Check, Failed, ended, must, until
from rtsp import Ended, TooLate
from serving import descriptors, is_established, listening_inode
from sessions import Sessions
from viewer import Viewer, Wire, want

# Seconds that a connection has until something was sent to it.
FIRST_REPLY = 15
# Seconds that a client which was answered is silent here.
SILENCE = 65
# Seconds that a peer has which takes nothing: a minute from the last byte that its system took. Its
# system may find some more room after a while, and then the minute begins anew.
TAKES_NOTHING = 300
HALF_REQUEST = b"DESCRIBE rtsp://h/small.mpg RTSP/1.0\r\nCSe"
CROWD = 250
# The server that is short of file descriptors: its workers, the clients that wait, and for how many
# seconds. A worker tries again after 10 ms, 20 ms and so on, at most a second.
WORKERS, WAITING, SHORT = 8, 24, 4
# Seconds in which a worker whose connection is closed is in accept again.
TO_ACCEPT = 1
# What /proc calls an event poll.
POLL = "anon_inode:[eventpoll]"


def answered(port):
    """Whether OPTIONS is answered on a new connection, which is then ended."""
    with Wire(port) as wire:
        return wire.ask("OPTIONS", "*").startswith("RTSP/1.0 200 OK")


def all_answer(port, count):
    """Whether so many workers are there: that many connections are answered side by side."""
    wires = []
    try:
        for number in range(count):
            wires.append(Wire(port))
            try:
                reply = wires[-1].ask("OPTIONS", "*")
            except (TooLate, Ended, OSError) as error:
                raise Failed(
                    f"expected {count} workers that answer, number {number + 1} doesn't"
                    f" ({type(error).__name__})") from None
            want("OPTIONS", "RTSP/1.0 200 OK", reply[:15])
    finally:
        for wire in wires:
            wire.socket.close()


def until_ended(wire, begun, each_second=b""):
    """Waits for the server to end the connection, and sends some bytes each second; the seconds
    from `begun` on."""
    while time.monotonic() < begun + PATIENCE:
        try:
            if each_second:
                wire.socket.sendall(each_second)
            wire.receive(1)
        except TooLate:
            continue
        except (Ended, ConnectionError):
            return time.monotonic() - begun
        raise Failed(f"expected nothing from the server, got {bytes(wire.came)!r}")
    raise Failed(
        f"expected the connection given up {FIRST_REPLY} s after its accept,"
        f" it is open after {PATIENCE} s")


def in_its_time(what, seconds):
    # The accept comes after the connection is made, and a second is left for the clocks.
    must(f"{what} given up {FIRST_REPLY} s after its accept", seconds >= FIRST_REPLY - 1,
         f"{seconds:.1f} s")


def silent(lab):
    """A silent peer doesn't keep its worker, and another client is served meanwhile."""
    film = lab.models["colours.mpg"]
    with lab.serving([film.name, "small.mpg"], workers=2) as server:
        begun = time.monotonic()
        with Wire(server.port) as wire:
            with Viewer(server.port, film) as viewer:
                viewer.start(units=(0, 250))
                viewer.play()
            in_its_time("a silent peer", until_ended(wire, begun))
        all_answer(server.port, 2)


def dripping(lab):
    """A peer that sends a byte each second, and no request, is given up likewise."""
    with lab.serving(["small.mpg"], workers=1) as server:
        begun = time.monotonic()
        with Wire(server.port) as wire:
            in_its_time("a dripping peer", until_ended(wire, begun, b"O"))
        want("the next client is answered", True, answered(server.port))


def blank_lines(lab):
    """So is one that sends line ends, which mean nothing between requests."""
    with lab.serving(["small.mpg"], workers=1) as server:
        begun = time.monotonic()
        with Wire(server.port) as wire:
            in_its_time("a peer that sends line ends", until_ended(wire, begun, b"\r\n"))


def vanished(lab):
    """A peer that is gone without a word after half a request leaves its worker to the next one."""
    with lab.serving(["small.mpg"], workers=1) as server:
        # Its system says nothing of it: no byte comes any more, and no end.
        with Wire(server.port) as gone:
            gone.socket.sendall(HALF_REQUEST)
            try:
                want("the next client is answered", True, answered(server.port))
            except TooLate:
                raise Failed(
                    f"expected the worker of a peer that vanished free after {FIRST_REPLY} s,"
                    f" another client isn't answered in {PATIENCE} s") from None


def four_silent(lab):
    """Four silent connections don't stop a server of four workers."""
    with lab.serving(["small.mpg"], workers=4) as server:
        wires = [Wire(server.port) for _ in range(4)]
        try:
            want("a fifth client is answered", True, answered(server.port))
        except TooLate:
            raise Failed(
                f"expected a fifth client answered after {FIRST_REPLY} s, it isn't in {PATIENCE} s"
            ) from None
        finally:
            for wire in wires:
                wire.socket.close()
        all_answer(server.port, 4)


def broken_play(lab):
    """A client that resets its connection in the middle of a play gives its bandwidth back."""
    film = lab.models["colours.mpg"]
    with lab.serving([film.name], workers=1, capacity=2000) as server:
        with Viewer(server.port, film) as viewer:
            viewer.start(units=(0, 250))
            viewer.play(20_000)
            viewer.reset()
        with Viewer(server.port, film) as viewer:
            viewer.start(units=(0, 250))
            viewer.play(20_000)


def quiet_after(lab, *steps):
    """A client that was answered and is silent for a minute is still served."""
    film = lab.models["colours.mpg"]
    with lab.serving([film.name], workers=1) as server:
        with Viewer(server.port, film, "x-Startup: 100") as viewer:
            if "PLAY" in steps:
                viewer.start(units=(0, 250))
                viewer.play(20_000)
                viewer.pause()
            try:
                viewer.quiet(SILENCE)
                viewer.start(units=None if "PLAY" in steps else (0, 250))
            except Ended:
                raise Failed(
                    f"expected an answered client still served after {SILENCE} s of silence,"
                    " its connection was ended") from None
            viewer.play()


def takes_nothing(lab):
    """A client that plays and takes nothing is given up, and its worker is free."""
    film = lab.models["large.mpg"]
    with lab.serving([film.name], workers=1, capacity=10 ** 9) as server:
        with Viewer(server.port, film, "x-Startup: 0", room=4096) as viewer:
            viewer.start(units=(0, len(film.units)))
            own = viewer.socket.getsockname()[1]
            until("a client that takes nothing given up",
                  lambda: not is_established(server.port, own), TAKES_NOTHING)
        all_answer(server.port, 1)


def short_of_descriptors(lab):
    """A moment without file descriptors keeps clients waiting, and then each of them is served.

    All workers hold a connection as the limit falls. So none of them waits in accept, and none has
    what its next connection needs."""
    with lab.serving(["small.mpg"], workers=WORKERS) as server:
        busy = connected_workers(server)
        with shortage(server):
            for wire in busy:
                wire.socket.close()
            until_idle(server)
            wires = ask_at_once(server)
            early = [number for number, wire in enumerate(wires) if has_news(wire)]
            want("clients answered or ended without a file descriptor", [], early)
        all_served(server, wires)


def short_while_idle(lab):
    """The same with workers that wait in accept as the limit falls: a shortage only delays.

    Each of them has what its next connection needs: the server makes the event poll before it calls
    accept, and there the system sets the socket's number aside before it waits. So some clients are
    answered at once, nobody is ended, and after the shortage all others are served."""
    with lab.serving(["small.mpg"], workers=WORKERS) as server:
        for wire in connected_workers(server):
            wire.socket.close()
        until_idle(server)
        time.sleep(TO_ACCEPT)
        with shortage(server):
            wires = ask_at_once(server)
            # Their workers go on to the next connection, and nothing can be opened for it.
            first = [wire for wire in wires if has_news(wire)]
            answered_first = sum(outcome(wire) for wire in first)
            time.sleep(SHORT)
            must_run(server)
        all_served(server, [wire for wire in wires if wire not in first], answered_first)


def all_served(server, wires, before=0):
    """Each client that asked is answered, `before` of them by now, and all workers are there."""
    want("clients answered", WAITING, before + sum(outcome(wire) for wire in wires))
    all_answer(server.port, WORKERS)


def connected_workers(server):
    """A connection to each worker, all of them answered. So all workers are there: while the server
    still starts, a shortage ends it, since it can't open what it needs."""
    wires = [Wire(server.port) for _ in range(WORKERS)]
    for wire in wires:
        want("OPTIONS", "RTSP/1.0 200 OK", wire.ask("OPTIONS", "*")[:15])
    return wires


def of_connections(server, polls=True):
    """The server's file descriptors that belong to connections: their sockets, and the event polls
    that they have. A worker without a connection has the poll of its next one."""
    listening = f"socket:[{listening_inode(server.port)}]"
    return {
        number for number, what in descriptors(server.child.pid).items()
        if polls and what == POLL or what.startswith("socket:") and what != listening}


def until_idle(server):
    until("a server that has closed its connections",
          lambda: not server.is_running() or not of_connections(server, polls=False))
    must_run(server)


def must_run(server):
    if not server.is_running():
        raise Failed(f"{ended(server)}, after a moment without file descriptors")


@contextlib.contextmanager
def shortage(server):
    """Lets the server open no file descriptor any more, until it ends. Those that its connections
    have by now, and close, it can't open again either."""
    pid = server.child.pid
    taken = set(descriptors(pid)) - of_connections(server)
    lowest = next(number for number in range(len(taken) + 1) if number not in taken)
    soft, hard = resource.prlimit(pid, resource.RLIMIT_NOFILE)
    resource.prlimit(pid, resource.RLIMIT_NOFILE, (lowest, hard))
    try:
        yield
    finally:
        if server.is_running():
            resource.prlimit(pid, resource.RLIMIT_NOFILE, (soft, hard))


def has_news(wire):
    """Whether bytes or an end came on a connection that waits."""
    return bool(select.select([wire.socket], [], [], 0)[0])


def ask_at_once(server):
    """Clients that ask during a shortage, and some time later; the server must not have ended."""
    try:
        wires = [Wire(server.port) for _ in range(WAITING)]
        for wire in wires:
            wire.send("OPTIONS", "*")
        time.sleep(SHORT)
    except OSError:
        # Where the server ends, its clients are reset.
        time.sleep(1)
        must_run(server)
        raise
    must_run(server)
    return wires


def outcome(wire):
    """Whether a connection that asked was answered, or ended. Ends it, so that its worker is free
    for the next one."""
    try:
        return wire.reply().startswith("RTSP/1.0 200 OK")
    except Ended:
        return False
    except TooLate:
        raise Failed(f"expected each client answered or ended, one waits {PATIENCE} s") from None
    finally:
        wire.socket.close()


def crowd(lab):
    """250 sessions at once, each of which gets its film."""
    film = lab.models["colours.mpg"]
    with lab.serving([film.name], workers=CROWD, capacity=10 ** 9) as server:
        sessions = Sessions(server.port, film.name, film.data, CROWD)
        try:
            faults = sessions.play(PATIENCE, lambda: None)
        finally:
            sessions.close()
        want(f"faults of {CROWD} sessions", [], faults)


def checks():
    calls = [
        ("250 sessions at once", crowd), ("a silent peer", silent), ("a dripping peer", dripping),
        ("a peer that sends line ends", blank_lines), ("a peer that vanishes", vanished),
        ("four silent connections", four_silent), ("a reset in a play", broken_play),
        ("a minute of silence after SETUP", lambda lab: quiet_after(lab, "SETUP")),
        ("a minute of silence in a pause", lambda lab: quiet_after(lab, "SETUP", "PLAY")),
        ("a peer that takes nothing", takes_nothing),
        ("a moment without file descriptors", short_of_descriptors),
        ("idle workers and no file descriptors", short_while_idle)]
    return [Check(name, call) for name, call in calls]
