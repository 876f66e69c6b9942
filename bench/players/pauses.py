#!/usr/bin/env python3
"""Pauses each player for so many seconds, and resumes it: pauses.py PROGRAM FOLDER DISPLAY SECONDS

FOLDER has film.mpg with 25 pictures a second; DISPLAY is an X display for ffplay. All play at once.
Prints a line for each player: up to where it had shown the film when it was paused, and at last,
its status, and when it ended. Only says what it saw; ends with status 1 if a player showed nothing.
"""

import json
import os
import re
import shutil
import signal
import socket
import subprocess
import sys
import time
from concurrent.futures import ThreadPoolExecutor
from pathlib import Path

sys.dont_write_bytecode = True
BENCH = Path(__file__).resolve().parent.parent
sys.path.insert(0, str(BENCH))
import serving

# Seconds before the pause, and after the film's end until a player is told to end.
PLAYED, AFTER = 9, 20
PICTURES_A_SECOND = 25


class Player:
    """A player, how it is called, how it is paused and resumed, and up to where it has shown."""

    def __init__(self, name, words, toggle, pattern, unit=1.0, display=""):
        self.name, self.words, self.toggle = name, words, toggle
        self.pattern, self.unit, self.display = pattern, unit, display

    def shown(self, text):
        found = [float(at) for at in re.findall(self.pattern, text.read_text(errors="replace"))]
        return max(found, default=0) * self.unit

    def tried(self, folder, seconds, length):
        """The line of this player, and whether it showed anything."""
        if not shutil.which(self.words[0]):
            return f"{self.name}: {self.words[0]} is missing", True
        text = folder / f"{self.name}.txt".replace(" ", "-")
        with open(text, "wb") as out:
            child = subprocess.Popen(
                self.words, cwd=folder, stdin=subprocess.PIPE, stdout=out, stderr=out,
                start_new_session=True, env={**os.environ, "DISPLAY": self.display})
        time.sleep(PLAYED)
        self.toggle(child, True)
        time.sleep(2)
        paused = self.shown(text)
        time.sleep(seconds - 2)
        self.toggle(child, False)
        resumed = time.monotonic()
        try:
            child.wait(length - paused + AFTER)
            ended = f"ended {time.monotonic() - resumed:.1f} s after the resume"
        except subprocess.TimeoutExpired:
            os.killpg(child.pid, signal.SIGKILL)
            child.wait()
            ended = f"still ran {AFTER} s after the film, ended by SIGKILL"
        last = self.shown(text)
        return (f"{self.name}: paused at {paused:.2f} s, shown up to {last:.2f} of {length:.0f} s,"
                f" status {child.returncode}, {ended}"), last > 0


def by_line(child, _):
    """A line on the player's input."""
    child.stdin.write(b"pause\n")
    child.stdin.flush()


def by_key(display):
    """The key p, in the player's window."""
    words = ["xdotool", "search", "--onlyvisible", "--class", ".", "key", "--window", "%1", "p"]

    def toggle(*_):
        subprocess.run(words, env={**os.environ, "DISPLAY": display}, check=False)
    return toggle


def by_socket(path):
    """A message at mpv's socket."""
    def toggle(_, pause):
        with socket.socket(socket.AF_UNIX) as peer:
            peer.connect(str(path))
            words = {"command": ["set_property", "pause", pause]}
            peer.sendall(json.dumps(words).encode() + b"\n")
            peer.recv(4096)
    return toggle


def players(url, folder, display):
    def mpv(name, *more):
        path = folder / f"{name}.socket".replace(" ", "-")
        words = ["mpv", "--no-config", "--vo=null", "--ao=null", "--rtsp-transport=tcp", *more]
        words += [f"--input-ipc-server={path}", "--term-status-msg=at ${=time-pos}s", url]
        return Player(name, words, by_socket(path), r"at ([\d.]+)s")

    ffplay = ["ffplay", "-hide_banner", "-v", "info", "-rtsp_transport", "tcp", "-vf", "showinfo"]
    mplayer = ["mplayer", "-noconfig", "all", "-vo", "null", "-nosound", "-slave", url]
    gst = ["/usr/bin/python3", str(BENCH / "players/pause_gst.py"), url]
    return [
        Player("ffplay", [*ffplay, url], by_key(display), r"pts_time:([\d.]+)", 1.0, display),
        mpv("mpv"), mpv("mpv with cache", "--cache=yes"),
        Player("mplayer", mplayer, by_line, r"V: *([\d.]+)"),
        Player("GStreamer", gst, by_line, r"picture (\d+)", 1 / PICTURES_A_SECOND)]


def main():
    program, folder, display = sys.argv[1], Path(sys.argv[2]), sys.argv[3]
    seconds = float(sys.argv[4])
    length = (folder / "film.mpg").read_bytes().count(b"\0\0\1\0") / PICTURES_A_SECOND
    with serving.Server(program, folder, ["film.mpg"], capacity=10 ** 8) as server:
        chosen = players(f"rtsp://127.0.0.1:{server.port}/film.mpg", folder, display)
        with ThreadPoolExecutor(len(chosen)) as pool:
            tried = list(pool.map(lambda player: player.tried(folder, seconds, length), chosen))
    for line, _ in tried:
        print(line)
    return 0 if all(seen for _, seen in tried) else 1


if __name__ == "__main__":
    sys.exit(main())
