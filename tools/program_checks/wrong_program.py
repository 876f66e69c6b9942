#!/usr/bin/env python3
"""A program that does one thing wrong, to see that the checks notice: wrong_program.py WORDS..

RIGHT names the right program, WRONG what is wrong (`FAULTS` of try_checks.py). Commands run the
right program, and their status or output is changed. `serve` runs it behind a relay that changes
the bytes that go by. For a shortage of file descriptors `serve` is a small server of its own.
"""

import ctypes
import os
import re
import select
import signal
import socket
import subprocess
import sys
import threading
import time
from pathlib import Path

sys.dont_write_bytecode = True
sys.path.insert(0, str(Path(__file__).resolve().parent.parent.parent / "bench"))
import serving

WRONG, RIGHT = os.environ["WRONG"], os.environ["RIGHT"]
OK = b"RTSP/1.0 200 OK\r\nCSeq: 1\r\n\r\n"


def run_command(words):
    ran = subprocess.run([RIGHT, *words], capture_output=True)
    out, err, status = ran.stdout, ran.stderr, ran.returncode
    if WRONG == "status is 1":
        status = 1
    if WRONG == "nothing said of errors":
        err = b""
    if WRONG == "a byte of the output differs" and out:
        out = bytes([out[0] ^ 1]) + out[1:]
    try:
        os.write(1, out)
    except OSError:
        status = 0 if WRONG == "failed writes pass" else status
    os.write(2, b"" if WRONG == "failed writes pass" else err)
    return status


def changed(data, state):
    """The bytes of the server as the relay passes them on."""
    state["passed"] += len(data)
    if WRONG == "a byte of the media differs" and state["passed"] > 20_000 and not state["done"]:
        state["done"] = True
        return data[:-1] + bytes([data[-1] ^ 1])
    if WRONG == "media are dropped" and data[:1] == b"$":
        return b""
    if WRONG == "session ids are always the same":
        return re.sub(rb"Session: [0-9a-f]{16}", b"Session: 0123456789abcdef", data)
    if WRONG == "a reply says something else":
        return data.replace(b"Public: OPTIONS, DESCRIBE", b"Public: DESCRIBE, OPTIONS")
    return data


def pass_on(source, target, change):
    last = time.monotonic()
    while True:
        try:
            source.settimeout(1)
            data = source.recv(65536)
        except TimeoutError:
            if WRONG == "silence of 30 s ends a connection" and time.monotonic() - last > 30:
                break
            continue
        except OSError:
            break
        if not data:
            break
        last = time.monotonic()
        try:
            target.sendall(change(data))
        except OSError:
            break
    if WRONG == "connections are never ended":
        KEPT.append((source, target))
        return
    for end in (source, target):
        try:
            end.shutdown(socket.SHUT_RDWR)
        except OSError:
            pass


def relay(client, port):
    if WRONG == "a worker is lost by each peer that leaves":
        LOST.acquire()
    server = socket.create_connection(("127.0.0.1", port))
    state = {"passed": 0, "done": False}
    pair = [(client, server, lambda data: data), (server, client, lambda data: changed(data, state))]
    for one in pair:
        threading.Thread(target=pass_on, args=one, daemon=True).start()


LOST = threading.Semaphore(1)
# Sockets that would be closed as soon as nothing names them.
KEPT = []


def end_with_parent():
    """Lets the system end this process where its parent is ended, by whatever."""
    PR_SET_PDEATHSIG = 1
    ctypes.CDLL(None).prctl(PR_SET_PDEATHSIG, signal.SIGKILL)


def serve(words):
    """The right server at a port of its own, and a relay at the port that was asked for."""
    given = dict(word.split("=", 1) for word in words if not word.startswith("film="))
    with socket.socket() as asked:
        asked.bind(("127.0.0.1", 0))
        port = asked.getsockname()[1]
    inner = [f"port={port}" if word.startswith("port=") else word for word in words]
    child = subprocess.Popen([RIGHT, "serve", *inner], preexec_fn=end_with_parent)
    threading.Thread(target=lambda: os._exit(child.wait()), daemon=True).start()
    # A connection that only asks would be one of those that the server counts.
    while not serving.is_listening(port):
        time.sleep(0.01)
    everywhere = given.get("bind") == "all" or WRONG == "it listens everywhere"
    with socket.create_server(
            ("0.0.0.0" if everywhere else "127.0.0.1", int(given["port"])), backlog=512) as listener:
        while True:
            relay(listener.accept()[0], port)


def answer_all(listener, spare):
    """A worker: answers what comes on one connection after another."""
    while True:
        try:
            link, _ = listener.accept()
        except OSError:
            if WRONG == "a shortage ends it":
                os._exit(7)
            if WRONG == "a shortage ends connections":
                # It keeps a descriptor for that, as some servers do.
                os.close(spare)
                listener.accept()[0].close()
                spare = os.open("/dev/null", os.O_RDONLY)
            time.sleep(0.2)
            continue
        with link:
            if WRONG == "a shortage ends what was accepted" and not can_wait():
                continue
            while link.recv(4096):
                link.sendall(OK)


def can_wait():
    """Whether an event poll can be opened."""
    try:
        select.epoll().close()
    except OSError:
        return False
    return True


def serve_options(words):
    given = dict(word.split("=", 1) for word in words if not word.startswith("film="))
    listener = socket.create_server(("127.0.0.1", int(given["port"])), backlog=512)
    for _ in range(int(given["workers"])):
        spare = os.open("/dev/null", os.O_RDONLY)
        threading.Thread(target=answer_all, args=(listener, spare), daemon=True).start()
    time.sleep(1000)


COMMAND_FAULTS = (
    "status is 1", "nothing said of errors", "a byte of the output differs", "failed writes pass")


def main():
    words = sys.argv[1:]
    if words[:1] != ["serve"] or WRONG in COMMAND_FAULTS:
        sys.exit(run_command(words))
    (serve_options if "shortage" in WRONG else serve)(words[1:])


main()
