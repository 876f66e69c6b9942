"""What the checks share: the program, its folder, free ports, running commands and servers.

A check is a name and a function of a `Lab`. It returns where the program did what it should, and
raises `rtsp.Wrong` with one line where it didn't; `Failed` is such a `Wrong`.
"""

import contextlib
import random
import socket
import subprocess
import tempfile
import threading
import time
from collections import namedtuple
from pathlib import Path

import serving
from rtsp import Wrong
from viewer import shown

Check = namedtuple("Check", "name call")
Ran = namedtuple("Ran", "status out err")

# Seconds for whatever a healthy server does at once, on a machine that is busy with other work.
PATIENCE = 120


class Failed(Wrong):
    """The program didn't do what it should."""


def must(what, holds, came):
    """Raises Failed where it doesn't hold."""
    if not holds:
        raise Failed(f"expected {what}, got {shown(came)}")


def want_bytes(what, wanted, came):
    """As `want`, for long byte strings: tells where they differ."""
    if wanted == came:
        return
    shorter = min(len(wanted), len(came))
    place = next((k for k in range(shorter) if wanted[k] != came[k]), shorter)
    raise Failed(
        f"{what}: expected {len(wanted)} bytes, got {len(came)}, other ones from byte {place} on:"
        f" expected {shown(wanted[place:place + 16])}, got {shown(came[place:place + 16])}")


def until(what, holds, patience=PATIENCE):
    """Waits until `holds` answers something true, and returns it."""
    end = time.monotonic() + patience
    while not (answer := holds()):
        if time.monotonic() > end:
            raise Failed(f"expected {what} within {patience} seconds, it didn't come")
        time.sleep(0.1)
    return answer


class Ports:
    """Free ports below those that the system gives to connections; each is given once."""

    def __init__(self):
        self.lock = threading.Lock()
        self.given = set()

    def take(self):
        with self.lock:
            while True:
                port = random.randrange(10_000, 30_000)
                if port not in self.given and self.is_free(port):
                    self.given.add(port)
                    return port

    @staticmethod
    def is_free(port):
        with socket.socket() as asked:
            try:
                asked.bind(("0.0.0.0", port))
            except OSError:
                return False
        return True


class Lab:
    """The program under test, and a folder with the files that it is given."""

    def __init__(self, program, folder, files):
        self.program = str(program)
        self.folder = Path(folder)
        self.ports = Ports()
        self.files = files
        self.servers = set()
        for name, data in files.items():
            (self.folder / name).write_bytes(data)

    def run(self, *words, out=None, patience=300, limits=""):
        """Runs the program to its end. `out` is where its output goes, if not into the answer;
        `limits` are the options of the shell's `ulimit`."""
        command = [self.program, *words]
        if limits:
            command = ["sh", "-c", f'ulimit {limits}; exec "$@"', "sh", *command]
        try:
            ran = subprocess.run(
                command, cwd=self.folder, stdin=subprocess.DEVNULL, timeout=patience,
                stdout=out or subprocess.PIPE, stderr=subprocess.PIPE)
        except subprocess.TimeoutExpired:
            raise Failed(f"{' '.join(map(str, words))}: didn't end in {patience} seconds") from None
        return Ran(ran.returncode, ran.stdout or b"", ran.stderr)

    @contextlib.contextmanager
    def serving(self, films, **words):
        """A running server in a folder of its own, with these films. It must not end by itself,
        unless it was given a number of connections."""
        with tempfile.TemporaryDirectory(dir=self.folder) as folder:
            for film in films:
                (Path(folder) / film).write_bytes(self.files[film])
            server = self.started(folder, films, words)
            self.servers.add(server)
            try:
                yield server
                if "connections" not in words and not server.is_running():
                    raise Failed(ended(server))
            finally:
                self.servers.discard(server)
                server.stop()

    def started(self, folder, films, words):
        """A server at a free port; another one is tried where somebody took it meanwhile."""
        for _ in range(5):
            server = serving.Server(
                self.program, folder, films, PATIENCE, port=self.ports.take(), **words)
            try:
                return server.__enter__()
            except serving.NotServed as error:
                if "GateFault" not in str(error):
                    raise Failed(str(error)) from None
        raise Failed("expected a server that listens, none of five ports could be opened")


    def stop_servers(self):
        """Ends the servers of checks that didn't end."""
        for server in list(self.servers):
            server.child.kill()


def ended(server):
    """What is said of a server that ended where it should run."""
    return (
        f"expected a server that runs, it ended with status {server.child.returncode}:"
        f" {shown(server.errors())}")
