"""Starts the built server for a script, watches it, and stops it in any case.

    with Server(program, folder, films, capacity=500000, workers=4) as server:
        ...
        text = server.finish()

The films are names in `folder`, in which the server runs. Whether it listens is read from /proc/net/tcp, since a
connection that only asks would be one of those that the server counts.
"""

import contextlib
import os
import re
import socket
import subprocess
import time
from pathlib import Path

TICKS = os.sysconf("SC_CLK_TCK")
ENTRY = re.compile(r"(\d+) seat=(\d+) (play|halt|look) (.*)")
LISTENS, ESTABLISHED = "0A", "01"
SERVICE = Path(__file__).resolve().parent.parent / "tools" / "vodserve.service"


class NotServed(Exception):
    """The server didn't start, or ended where it shouldn't."""


def free_port():
    with socket.socket() as asked:
        asked.bind(("127.0.0.1", 0))
        return asked.getsockname()[1]


def is_listening(port):
    """Whether a socket of this machine listens at the port."""
    with open("/proc/net/tcp", encoding="ascii") as lines:
        next(lines)
        words = (line.split() for line in lines)
        return any(word[3] == LISTENS and int(word[1].split(":")[1], 16) == port for word in words)


def listening_inode(port):
    """The number of the socket that listens at the port, as /proc/PID/fd names it."""
    with open("/proc/net/tcp", encoding="ascii") as lines:
        next(lines)
        for line in lines:
            word = line.split()
            if word[3] == LISTENS and int(word[1].split(":")[1], 16) == port:
                return int(word[9])
    raise NotServed(f"nothing listens at port {port}")


def descriptors(pid):
    """What each open file descriptor of a process is, by its number."""
    found = {}
    for path in Path(f"/proc/{pid}/fd").iterdir():
        # One may be closed while they are listed.
        with contextlib.suppress(FileNotFoundError):
            found[int(path.name)] = os.readlink(path)
    return found


def is_established(port, peer):
    """Whether this machine's side at the port still has the connection from the port `peer`, both ends of this machine."""
    with open("/proc/net/tcp", encoding="ascii") as lines:
        next(lines)
        for line in lines:
            word = line.split()
            if (int(word[1].split(":")[1], 16), int(word[2].split(":")[1], 16)) == (port, peer):
                return word[3] == ESTABLISHED
    return False


def processor_seconds(pid):
    """Processor time of a process and all its threads, in seconds."""
    with open(f"/proc/{pid}/stat", encoding="ascii") as text:
        # The second field, the name in brackets, may have blanks; 14 and 15 are the times.
        fields = text.read().rpartition(")")[2].split()
    return (int(fields[11]) + int(fields[12])) / TICKS


def status_of(pid, name):
    """A number of /proc/PID/status: VmHWM and VmRSS in KiB, Threads."""
    with open(f"/proc/{pid}/status", encoding="ascii") as lines:
        for line in lines:
            if line.startswith(name + ":"):
                return int(line.split()[1])
    raise KeyError(name)


def service_environment():
    """The variables that the service sets for the server; what the caller has set counts instead."""
    text = SERVICE.read_text(encoding="utf-8")
    found = re.findall(r"^Environment=(\w+)=(\S+)$", text, re.MULTILINE)
    return {name: os.environ.get(name, value) for name, value in found}


def told_environment():
    """The same in a line of text."""
    return " ".join(f"{name}={value}" for name, value in service_environment().items())


class Server:
    """A running `vodserve serve`, with the variables of `environment` beside this process's own."""

    def __init__(self, program, folder, films, patience=60, environment=None, **words):
        self.port = words.setdefault("port", free_port())
        self.command = [program, "serve", *(f"film={film}" for film in films), *(f"{k}={v}" for k, v in words.items())]
        self.folder = Path(folder)
        self.patience = patience
        self.environment = {**os.environ, **(environment or {})}
        self.child = None

    def __enter__(self):
        self.out = open(self.folder / "serve.out", "w+b")
        self.err = open(self.folder / "serve.err", "w+b")
        self.child = subprocess.Popen(
            self.command, cwd=self.folder, env=self.environment, stdin=subprocess.DEVNULL,
            stdout=self.out, stderr=self.err)
        try:
            self.await_port()
        except BaseException:
            self.stop()
            raise
        return self

    def __exit__(self, *_):
        self.stop()

    def await_port(self):
        end = time.monotonic() + self.patience
        while not is_listening(self.port):
            if self.child.poll() is not None:
                raise NotServed(f"{' '.join(self.command)}: status {self.child.returncode}: {self.errors()}")
            if time.monotonic() > end:
                raise NotServed(f"doesn't listen after {self.patience} seconds")
            time.sleep(0.01)

    def stop(self):
        if self.child.poll() is None:
            self.child.kill()
        self.child.wait()
        self.out.close()
        self.err.close()

    def errors(self):
        return (self.folder / "serve.err").read_text(errors="replace").strip()

    def text(self):
        return (self.folder / "serve.out").read_text(errors="replace")

    def is_running(self):
        return self.child.poll() is None

    def processor_seconds(self):
        return processor_seconds(self.child.pid)

    def memory(self):
        """Memory that it has now, and its peak, in KiB."""
        return status_of(self.child.pid, "VmRSS"), status_of(self.child.pid, "VmHWM")

    def threads(self):
        return status_of(self.child.pid, "Threads")

    def knock(self):
        """A connection that is ended at once; False where none is taken any more."""
        try:
            socket.create_connection(("127.0.0.1", self.port), timeout=1).close()
        except OSError:
            return False
        return True

    def finish(self, patience=60):
        """Uses up the connections that are left, until the server ends by itself; its output and how many there were."""
        knocks = 0
        end = time.monotonic() + patience
        while self.is_running():
            if time.monotonic() > end:
                raise NotServed(f"doesn't end by itself after {knocks} more connections and {patience} seconds")
            knocks += self.knock()
            time.sleep(0.002)
        if self.child.returncode != 0:
            raise NotServed(f"ended with status {self.child.returncode}: {self.errors()}")
        return self.text(), knocks


class Journal:
    """What `serve` prints at its end, read."""

    def __init__(self, text):
        lines = text.split("\n")
        split = next((k for k, line in enumerate(lines) if line.startswith("calendar from=")), None)
        served = re.fullmatch(r"served connections=(\d+) entries=(\d+)", lines[-2]) if len(lines) > 1 else None
        if split is None or not served:
            raise NotServed(f"no calendar or last line in {text[-200:]!r}")
        self.connections, self.entries = int(served[1]), int(served[2])
        self.calendar = lines[split + 1 : -3]
        self.lines = lines[:split]
        self.admitted, self.refused, self.halts = {}, 0, []
        for place, line in enumerate(self.lines):
            self.read(place, line)

    def read(self, place, line):
        entry = ENTRY.fullmatch(line)
        if not entry or int(entry[1]) != place:
            raise NotServed(f"entry {place} is {line!r}")
        fields = dict(word.split("=") for word in entry[4].split() if "=" in word)
        if entry[3] == "play" and " admitted " in line:
            self.admitted[place] = fields
        elif entry[3] == "play":
            self.refused += 1
        elif entry[3] == "halt":
            self.halts.append(int(fields["number"]))

    def faults(self):
        """What is wrong with it, one line each: each play that was admitted has one halt, and no halt is without one."""
        told = []
        if len(self.lines) != self.entries:
            told.append(f"{len(self.lines)} entries are printed, and {self.entries} told")
        if len(set(self.halts)) != len(self.halts):
            told.append("a play is halted twice")
        never = sorted(set(self.admitted) - set(self.halts))
        if never:
            told.append(f"of {len(self.admitted)} plays that were admitted {len(never)} are never halted: {never[:5]}")
        unknown = sorted(set(self.halts) - set(self.admitted))
        if unknown:
            told.append(f"halts of what was never admitted: {unknown[:5]}")
        return told
