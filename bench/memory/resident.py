#!/usr/bin/env python3
"""The resident memory of a server with so many sessions that play: resident.py PROGRAM FOLDER COUNT..."""

import re
import selectors
import socket
import sys
import time
from collections import Counter
from pathlib import Path

sys.path.insert(0, str(Path(__file__).resolve().parent.parent))
import serving

STACK = 8192 * 1024
RANGE = re.compile(r"([0-9a-f]+)-([0-9a-f]+) (\S+) \S+ \S+ (\d+)\s*(.*)")


def play(port, number):
    """A connection that plays, once its replies came."""
    url = "rtsp://127.0.0.1/film.mpg"
    link = socket.create_connection(("127.0.0.1", port))
    setup = f"SETUP {url} RTSP/1.0\r\nCSeq: 1\r\nTransport: RTP/AVP/TCP\r\nx-Startup: {number % 50}\r\n\r\n"
    link.sendall(setup.encode())
    text = b""
    while b"\r\n\r\n" not in text:
        text += link.recv(4096)
    session = re.search(rb"Session: (\w+)", text).group(1).decode()
    link.sendall(f"PLAY {url} RTSP/1.0\r\nCSeq: 2\r\nSession: {session}\r\n\r\n".encode())
    reply = link.recv(12)
    if reply != b"RTSP/1.0 200":
        raise SystemExit(f"resident.py: {reply}")
    return link


def read_for(links, seconds):
    """Takes what comes, and lets it go."""
    chosen = selectors.DefaultSelector()
    for link in links:
        link.setblocking(False)
        chosen.register(link, selectors.EVENT_READ)
    end = time.monotonic() + seconds
    while time.monotonic() < end:
        for key, _ in chosen.select(0.2):
            key.fileobj.recv(1 << 16)


def kind_of(size, name, access):
    if name:
        return name.strip("[]").rpartition("/")[2]
    if access[1] != "w":
        return "guards"
    if size == STACK:
        return "stacks"
    return "own mapping" if size > STACK else "heaps of threads"


def resident(pid):
    """The resident KiB of each kind of mapping, and how many of it there are."""
    kinds, counts, kind = Counter(), Counter(), None
    with open(f"/proc/{pid}/smaps", encoding="ascii") as lines:
        for line in lines:
            found = RANGE.match(line)
            if found:
                low, high = int(found[1], 16), int(found[2], 16)
                kind = kind_of(high - low, found[5], found[3])
                counts[kind] += 1
            elif line.startswith("Rss:"):
                kinds[kind] += int(line.split()[1])
    return kinds, counts


def main():
    program, folder, counts = sys.argv[1], sys.argv[2], [int(word) for word in sys.argv[3:]]
    for count in counts:
        words = {"capacity": 100_000_000, "workers": max(count, 1), "connections": 1}
        with serving.Server(program, folder, ["film.mpg"], **words) as server:
            links = [play(server.port, number) for number in range(count)]
            read_for(links, 4)
            kinds, shown = resident(server.child.pid)
            peak = serving.status_of(server.child.pid, "VmHWM")
            print(f"{count} sessions: {sum(kinds.values()):,} KiB resident, {peak:,} KiB at most", flush=True)
            for kind, size in kinds.most_common(5):
                print(f"    {size:>8,} KiB in {shown[kind]} of {kind}")
            for link in links:
                link.close()


main()
