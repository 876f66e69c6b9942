#!/usr/bin/env python3
"""Plays films through with players that people have, and compares what they wrote: play.py PROGRAM FOLDER FILM...

One server serves all films. What arrives of NAME.mpg is compared with NAME.video where there is such a file, the video of a
system stream, and else with NAME.mpg. Each film is played by ffmpeg, GStreamer, mpv (those that are installed) and the client of
rtsp.py at once. Prints one line for each film and player; ends with status 1 where one didn't get the film.

The server says nothing at a film's end, and a player waits for more. So ffmpeg and mpv are told to give up after
SILENCE seconds without a byte, and GStreamer is interrupted once it has written the film or nothing for so long. Each is
stopped after the film's time and MARGIN seconds.

GStreamer is run twice. As it is, its rtspsrc moves the pictures' times by when packets came, and its sink drops what then
lies after the end that the Range of PLAY's answer tells: some of the last pictures. With buffer-mode=none the times are
those of the packets, and nothing is dropped. So the first run must give the film but for bytes of its last seconds, and
the second the film.
"""

import re
import shutil
import signal
import subprocess
import sys
import threading
import time
from pathlib import Path

sys.path.insert(0, str(Path(__file__).resolve().parent.parent))
import rtsp
import serving

SILENCE = 4
MARGIN = 20
LAST = 2.0  # GStreamer as it is may drop pictures within so many seconds of the end.
SHOWN = re.compile(r"at ([\d.]+)s")


class Play:
    """One film, its address, and the folder for what a player writes."""

    def __init__(self, server, folder, name):
        self.server = server
        self.folder = folder
        self.name = name
        video = (folder / name).with_suffix(".video")
        self.film = (video if video.exists() else folder / name).read_bytes()
        self.url = f"rtsp://127.0.0.1:{server.port}/{name}"
        self.seconds = self.length()

    def length(self):
        """The film's time, as DESCRIBE tells it."""
        with rtsp.Client(self.server.port, self.name) as client:
            text = client.must("DESCRIBE").body.decode("ascii")
        return float(re.search(r"a=range:npt=0-([\d.]+)", text)[1])

    def out(self, player):
        return self.folder / f"{self.name}.{player}"


def compared(got, film):
    """Whether a player got the film, and in words what it has of it."""
    place = rtsp.first_difference(got, film)
    if place is None:
        return True, f"{len(got)} bytes, the film byte for byte"
    if place == len(got):
        return False, f"{len(got)} bytes, the film but for its last {len(film) - len(got)}"
    if place == len(film):
        return False, f"{len(got)} bytes, the film and {len(got) - len(film)} more: {got[place:place + 16].hex()}"
    return False, (
        f"{len(got)} bytes of {len(film)}, other from {place} on:"
        f" {got[place:place + 16].hex()} for {film[place:place + 16].hex()}"
    )


def written(path):
    return path.read_bytes() if path.exists() else b""


def run_until(words, err, end, done):
    """Runs a player until it ends or `done` holds or `end` comes, and interrupts it as Ctrl-C does; its status."""
    with open(err, "wb") as told:
        child = subprocess.Popen(words, stdin=subprocess.DEVNULL, stdout=told, stderr=told)
        while child.poll() is None and time.monotonic() < end and not done():
            time.sleep(0.1)
        for stop in (signal.SIGINT, signal.SIGKILL):
            if child.poll() is None:
                child.send_signal(stop)
                try:
                    child.wait(10)
                except subprocess.TimeoutExpired:
                    continue
        return child.wait()


def last_line(path):
    lines = path.read_text(errors="replace").replace("\r", "\n").strip().split("\n")
    return lines[-1][:160]


def never():
    return False


def by_ffmpeg(play):
    out, err = play.out("ffmpeg"), play.out("ffmpeg.txt")
    words = ["ffmpeg", "-v", "warning", "-nostdin", "-rtsp_transport", "tcp", "-timeout", str(SILENCE * 1000000)]
    words += ["-i", play.url, "-c", "copy", "-f", "mpeg1video", "-y", str(out)]
    end = time.monotonic() + play.seconds + MARGIN
    run_until(words, err, end, never)
    good, told = compared(written(out), play.film)
    return good, told if good else f"{told}; it says: {last_line(err)}"


def gstreamer(play, player, words):
    """Runs GStreamer's rtspsrc with these words; the file that it wrote, and that of what it said."""
    out, err = play.out(player), play.out(f"{player}.txt")
    words = ["gst-launch-1.0", "-e", "-q", "rtspsrc", f"location={play.url}", "protocols=tcp", *words]
    words += ["!", "rtpmpvdepay", "!", "filesink", f"location={out}", "buffer-mode=unbuffered"]
    begun = time.monotonic()

    def done():
        if not out.exists():
            return False
        silent = time.time() - out.stat().st_mtime
        return out.stat().st_size >= len(play.film) or time.monotonic() - begun > play.seconds and silent > SILENCE

    run_until(words, err, begun + play.seconds + MARGIN, done)
    return out, err


def by_gstreamer(play):
    out, err = gstreamer(play, "gstreamer", [])
    got = written(out)
    good, told = compared(got, play.film)
    place = rtsp.first_difference(got, play.film)
    if place is None:
        return True, told
    last = len(play.film) * LAST / play.seconds
    good = place >= len(play.film) - last and len(got) <= len(play.film)
    dropped = f"the film up to byte {place}; of the {len(play.film) - place} after it {len(play.film) - len(got)} were dropped"
    return good, dropped if good else f"{told}; it says: {last_line(err)}"


def by_gstreamer_unmoved(play):
    out, err = gstreamer(play, "unmoved", ["buffer-mode=none"])
    good, told = compared(written(out), play.film)
    return good, told if good else f"{told}; it says: {last_line(err)}"


def by_mpv(play):
    err = play.out("mpv.txt")
    words = ["mpv", "--no-config", "--vo=null", "--ao=null", "--rtsp-transport=tcp", f"--network-timeout={SILENCE}"]
    words += ["--term-status-msg=at ${=time-pos}s", play.url]
    end = time.monotonic() + play.seconds + MARGIN
    run_until(words, err, end, never)
    shown = SHOWN.findall(err.read_text(errors="replace"))
    if not shown:
        return False, f"nothing was shown; it says: {last_line(err)}"
    last = max(float(at) for at in shown)
    # It tells the time of the picture that it shows, the last of which begins before the film's end.
    return abs(play.seconds - last) < 0.5, f"shown up to {last:.2f} s of {play.seconds:.2f} s"


def by_own_client(play):
    media = rtsp.Media()
    with rtsp.Client(play.server.port, play.name) as client:
        client.set_up()
        client.must("PLAY", [("Range", "npt=0-")])
        begun = time.monotonic()
        try:
            rtsp.read_film(client, media, len(play.film))
            took = time.monotonic() - begun
            rtsp.nothing_more(client, 0.3)
            client.must("TEARDOWN")
        except (rtsp.TooLate, rtsp.Ended, rtsp.Wrong) as error:
            return False, f"{compared(media.film, play.film)[1]}; {type(error).__name__}: {error}"
    good, told = compared(media.film, play.film)
    return good, f"{told}; {media.packets} packets and {media.reports} reports in {took:.1f} s of {play.seconds:.1f} s"


def players():
    known = {
        "ffmpeg": ("ffmpeg", by_ffmpeg),
        "GStreamer": ("gst-launch-1.0", by_gstreamer),
        "GStreamer with buffer-mode=none": ("gst-launch-1.0", by_gstreamer_unmoved),
        "mpv": ("mpv", by_mpv),
    }
    found = {name: play for name, (tool, play) in known.items() if shutil.which(tool)}
    return {**found, "own client": by_own_client}


def play_all(play):
    """Plays a film by all players at once; what each answered."""
    answers = {}

    def one(name, by):
        try:
            answers[name] = by(play)
        except Exception as error:  # A player that couldn't run is a line of the report, and the others go on.
            answers[name] = False, f"{type(error).__name__}: {error}"

    threads = [threading.Thread(target=one, args=pair) for pair in players().items()]
    for thread in threads:
        thread.start()
    for thread in threads:
        thread.join()
    return answers


def main():
    program, folder, *names = sys.argv[1:]
    folder = Path(folder)
    bad = 0
    with serving.Server(program, folder, names, capacity=20000000, workers=8, connections=4 * len(names)) as server:
        for name in names:
            play = Play(server, folder, name)
            for player, (good, told) in sorted(play_all(play).items()):
                bad += not good
                print(f"{name}, {player}: {'' if good else 'DIFFERENT: '}{told}", flush=True)
        text, _ = server.finish()
    journal = serving.Journal(text)
    for fault in journal.faults():
        bad += 1
        print(f"journal: {fault}")
    print(f"{len(names)} films, {len(journal.admitted)} plays admitted and halted, {bad} of the lines above different")
    sys.exit(bad > 0)


main()
