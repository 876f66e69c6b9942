#!/usr/bin/env python3
"""Plays one film by each player, with the option that the README has for it: options.py PROGRAM
FOLDER DISPLAY..

FOLDER has film.mpg. Each DISPLAY is an X display for one ffplay. All play at once. Prints a line for each player: how it was
called, its status, after how many seconds it ended or how it had to be ended, and how much of the
film it had. Only says what it saw; ends with status 1 if a player saw nothing at all.
"""

import os
import re
import shutil
import signal
import subprocess
import sys
import time
from concurrent.futures import ThreadPoolExecutor
from pathlib import Path

sys.dont_write_bytecode = True
sys.path.insert(0, str(Path(__file__).resolve().parent.parent))
import serving

# Seconds after the film's end in which a player may end by itself, before it is told to.
AFTER = 40
# The user that VLC runs as, which refuses to run as root.
VLC_USER = "nobody"


class Player:
    """A player, how it is called, and how it is told to end: by keys, or by signals."""

    SIGNALS = (signal.SIGINT, signal.SIGTERM, signal.SIGKILL)

    def __init__(self, name, words, stops=SIGNALS, seen=None, display=""):
        self.name, self.words, self.stops, self.seen = name, words, stops, seen
        self.display = display

    def tried(self, folder, seconds, kind):
        """The line of this player."""
        tool = "cvlc" if "cvlc" in self.words else self.words[0]
        if not shutil.which(tool):
            return f"{self.name}: {tool} is missing"
        status, ended, text = run(self, folder, seconds)
        return f"{self.name} ({kind}): status {status}, {ended}; {self.seen(text)}"


def run(player, folder, seconds):
    """Runs a player until it ends, or tells it to; its status, how it ended, what it printed."""
    told = folder / f"{player.name}.txt".replace(" ", "-")
    begun = time.monotonic()
    with open(told, "wb") as out:
        child = subprocess.Popen(
            player.words, cwd=folder, stdin=subprocess.DEVNULL, stdout=out, stderr=out,
            start_new_session=True, env={**os.environ, "DISPLAY": player.display})
    try:
        child.wait(seconds + AFTER)
        ended = f"ended by itself after {time.monotonic() - begun:.1f} s"
    except subprocess.TimeoutExpired:
        ended = f"still ran {AFTER} s after the film, " + stop(child, player.stops, player.display)
    return child.returncode, ended, told.read_text(errors="replace").replace("\r", "\n")


def stop(child, stops, display):
    for how in stops:
        if how == "q":
            words = ["xdotool", "search", "--onlyvisible", "--class", ".", "key", "--window", "%1", "q"]
            subprocess.run(words, env={**os.environ, "DISPLAY": display}, check=False)
        else:
            os.killpg(child.pid, how)
        try:
            child.wait(8)
        except subprocess.TimeoutExpired:
            continue
        return f"ended by {how if how == 'q' else how.name}"
    return "didn't end"


def file_seen(path, film):
    """How much of the film a file has."""
    def seen(_):
        got = path.read_bytes() if path.exists() else b""
        if got == film:
            return f"{len(got):,} bytes, the film byte for byte"
        same = next((k for k in range(min(len(got), len(film))) if got[k] != film[k]), len(got))
        pictures = got.count(b"\0\0\1\0")
        return (
            f"{len(got):,} of {len(film):,} bytes, the first {same:,} of them equal,"
            f" {pictures} of {film.count(bytes([0, 0, 1, 0]))} pictures")
    return seen


def last_time(pattern):
    """The greatest number of that pattern that was printed."""
    def seen(text):
        found = [float(at) for at in re.findall(pattern, text)]
        return f"shown up to {max(found):g}" if found else "nothing shown"
    return seen


def what_it_says(text):
    said = [line for line in text.split("\n") if re.search("rtsp|MRL|unknown option", line)]
    return "it says: " + (said[-1].partition("] ")[2] or said[-1])[:120] if said else "no word of it"


def players(url, folder, film, kind, displays):
    def out(name):
        return folder / f"{name}.out"

    def gst(name, *more):
        words = ["gst-launch-1.0", "-e", "rtspsrc", f"location={url}", "protocols=tcp", *more, "!"]
        words += ["rtpmpvdepay", "!", "filesink", f"location={out(name)}", "buffer-mode=unbuffered"]
        return Player(name, words, seen=file_seen(out(name), film))

    if kind == "startup=1":
        return [gst("gstreamer-startup-1")]
    ffmpeg = ["ffmpeg", "-v", "warning", "-nostdin", "-y"]
    copy = ["-i", url, "-c", "copy", "-f", "mpeg1video"]
    ffplay = ["ffplay", "-hide_banner", "-v", "info", "-rtsp_transport", "tcp", "-vf", "showinfo"]
    mpv = ["mpv", "--no-config", "--vo=null", "--ao=null", "--rtsp-transport=tcp"]
    status = "--term-status-msg=at ${=time-pos}s"
    vlc = ["setpriv", f"--reuid={VLC_USER}", "--clear-groups", "env", "HOME=/tmp", "cvlc"]
    vlc += ["--no-audio", "--vout=dummy", "--play-and-exit"]
    return [
        Player("ffmpeg", [*ffmpeg, "-timeout", "10000000", *copy, str(out("ffmpeg"))],
               seen=file_seen(out("ffmpeg"), film)),
        Player("ffmpeg-without-options", [*ffmpeg, *copy, str(out("ffmpeg-plain"))],
               seen=file_seen(out("ffmpeg-plain"), film)),
        Player("ffplay", [*ffplay, url], ("q", signal.SIGTERM, signal.SIGKILL),
               last_time(r"pts_time:([\d.]+)"), displays[0]),
        Player("ffplay-autoexit-timeout",
               [*ffplay, "-autoexit", "-timeout", "10000000", url], ("q", signal.SIGKILL),
               last_time(r"pts_time:([\d.]+)"), displays[1]),
        Player("mpv", [*mpv, "--cache=yes", status, url], seen=last_time(r"at ([\d.]+)s")),
        Player("mpv-timeout", [*mpv, "--network-timeout=10", status, url],
               seen=last_time(r"at ([\d.]+)s")),
        Player("mplayer", ["mplayer", "-noconfig", "all", "-vo", "null", "-nosound", url],
               (signal.SIGTERM, signal.SIGKILL), last_time(r"V: *([\d.]+)")),
        gst("gstreamer"), gst("gstreamer-buffer-mode-none", "buffer-mode=none"),
        Player("vlc", [*vlc, "--rtsp-tcp", url], seen=what_it_says),
        Player("vlc-without-options", [*vlc, url], seen=what_it_says)]


def main():
    program, folder, displays = sys.argv[1], Path(sys.argv[2]), sys.argv[3:]
    folder.chmod(0o755)
    film = (folder / "film.mpg").read_bytes()
    seconds = film.count(b"\0\0\1\0") / 25
    for kind in ("startup=25", "startup=1"):
        words = {"startup": kind.partition("=")[2], "capacity": 10 ** 8}
        with serving.Server(program, folder, ["film.mpg"], **words) as server:
            url = f"rtsp://127.0.0.1:{server.port}/film.mpg"
            chosen = players(url, folder, film, kind, displays)
            with ThreadPoolExecutor(len(chosen)) as pool:
                for line in pool.map(lambda player: player.tried(folder, seconds, kind), chosen):
                    print(line, flush=True)


main()
