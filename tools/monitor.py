#!/usr/bin/env python3
"""Shows whether a server is up, how fast it answers, and what is booked of its link.

It asks as a client does: OPTIONS and DESCRIBE, and GET_PARAMETER with the body x-Booked. Each
x-Booked takes one entry of the server's journal, which only fills: at one look a minute, 1,440
of 65,536 a day. The page at 127.0.0.1 and the terminal show the same. The films' plans are
computed here by the program, if the films' folder is on this machine. Without it the films are
those that the settings name.
"""

import argparse
import json
import os
import shutil
import sys
import threading
import time
from http.server import BaseHTTPRequestHandler, ThreadingHTTPServer

sys.dont_write_bytecode = True

from vodtools.page import page_of  # noqa: E402
from vodtools.program import ProgramError, find_program  # noqa: E402
from vodtools.server_state import ServerState  # noqa: E402
from vodtools.settings import Settings, SettingsError  # noqa: E402
from vodtools.terminal import line_of, screen_of  # noqa: E402

POLICY = "default-src 'none'; style-src 'unsafe-inline'"


def fail(text, status=2):
    print(f"vodserve-monitor: {text}", file=sys.stderr)
    sys.exit(status)


def json_of(state):
    """Returns the last answer and the films as JSON, for a script."""
    last = state.last()
    films = [
        {
            "name": film.name,
            "seconds": film.seconds,
            "peak": film.peak,
            "more_viewers": state.more_viewers(film),
        }
        for film in state.films
    ]
    now = {key: value for key, value in vars(last).items()} if last else {}
    return json.dumps({"last": now, "capacity": state.capacity(last), "films": films})


def handler_of(state, given):
    """Returns the class that answers the page's requests."""

    class Handler(BaseHTTPRequestHandler):
        """Answers GET of the page and of its numbers."""

        def do_GET(self):
            host = self.headers.get("Host", "").rpartition(":")[0] or self.headers.get("Host", "")
            if host not in ("127.0.0.1", "localhost"):
                self.answer(403, "text/plain", "this page is for 127.0.0.1 alone\n")
            elif self.path == "/":
                self.answer(200, "text/html", page_of(state, given.hours, given.every))
            elif self.path == "/state.json":
                self.answer(200, "application/json", json_of(state))
            else:
                self.answer(404, "text/plain", "there are / and /state.json\n")

        def answer(self, status, kind, text):
            data = text.encode("utf-8")
            self.send_response(status)
            self.send_header("Content-Type", f"{kind}; charset=utf-8")
            self.send_header("Content-Length", str(len(data)))
            self.send_header("Content-Security-Policy", POLICY)
            self.send_header("Cache-Control", "no-store")
            self.end_headers()
            self.wfile.write(data)

        def log_message(self, *_):
            """Writes no line for a request."""

    return Handler


def start_page(state, given):
    """Serves the page from a thread of its own."""
    try:
        server = ThreadingHTTPServer(("127.0.0.1", given.page), handler_of(state, given))
    except OSError as error:
        fail(f"port {given.page} for the page: {error.strerror}; use another: --page 8556")
    threading.Thread(target=server.serve_forever, daemon=True).start()
    state.page = f"http://127.0.0.1:{server.server_port}/"
    print(f"vodserve-monitor: page at {state.page}", flush=True)


def read_arguments():
    parser = argparse.ArgumentParser(
        description=__doc__, formatter_class=argparse.RawDescriptionHelpFormatter
    )
    parser.add_argument("settings", help="the server's settings file, as /etc/vodserve.conf")
    parser.add_argument("--folder", default="/var/lib/vodserve", help="the films' folder")
    parser.add_argument("--host", default="127.0.0.1", help="the server's address")
    parser.add_argument("--every", type=float, default=60, help="seconds between two questions")
    parser.add_argument("--hours", type=float, default=6, help="hours that the chart shows")
    parser.add_argument("--page", type=int, default=8555, help="the page's port; 0: no page")
    parser.add_argument("--no-look", action="store_true", help="never ask x-Booked")
    parser.add_argument("--once", action="store_true", help="ask once; status 1 if it is down")
    parser.add_argument("--program", help="the program for plans; default: the one that is here")
    given = parser.parse_args()
    if not given.every >= 1 or not 0 < given.hours <= 1000:
        fail("--every is at least 1 second, and --hours more than 0 and at most 1,000")
    if not 0 <= given.page <= 65535:
        fail("--page is a port, 1 to 65535, or 0 for no page")
    return given


def show(state, given):
    """Writes the last sample: a screen in a terminal, else a line."""
    if sys.stdout.isatty() and not given.once:
        columns = shutil.get_terminal_size().columns
        text = "\x1b[H\x1b[2J" + screen_of(state, given.hours, given.every, columns)
    elif given.once:
        text = screen_of(state, given.hours, given.every, 80)
    else:
        text = line_of(state, state.last())
    print(text, flush=True)


def main():
    given = read_arguments()
    try:
        folder = given.folder if os.path.isdir(given.folder) else None
        settings = Settings(given.settings, folder)
    except SettingsError as error:
        fail(error)
    state = ServerState(settings, given.host, look=not given.no_look)
    try:
        state.read_plans(find_program(given.program))
    except ProgramError as error:
        print(f"vodserve-monitor: no plans: {error}", file=sys.stderr)
    if given.once:
        sample = state.take_sample()
        show(state, given)
        return 0 if sample.is_up else 1
    if given.page:
        start_page(state, given)
    while True:
        begin = time.monotonic()
        state.take_sample()
        show(state, given)
        time.sleep(max(0.0, given.every - (time.monotonic() - begin)))


if __name__ == "__main__":
    try:
        sys.exit(main())
    except KeyboardInterrupt:
        sys.exit(130)
