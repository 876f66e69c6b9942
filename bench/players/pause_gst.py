#!/usr/bin/env python3
"""Plays a film by GStreamer, and pauses and goes on at each line of its input: pause_gst.py URL

Prints `picture N` for each picture that is shown, and `end` at the film's end. Its status is 1
after an error.
"""

import sys
import threading

import gi

gi.require_version("Gst", "1.0")
from gi.repository import GLib, Gst  # noqa: E402

PIPELINE = (
    "rtspsrc location={} protocols=tcp buffer-mode=none ! rtpmpvdepay ! mpegvideoparse"
    " ! fakesink name=sink sync=true signal-handoffs=true")


def main():
    Gst.init(None)
    pipeline = Gst.parse_launch(PIPELINE.format(sys.argv[1]))
    shown, status, loop = [0], [0], GLib.MainLoop()

    def show(*_):
        shown[0] += 1
        print(f"picture {shown[0]}", flush=True)

    def hear(_, message):
        if message.type == Gst.MessageType.ERROR:
            print(message.parse_error()[0], flush=True)
            status[0] = 1
        if message.type == Gst.MessageType.EOS:
            print("end", flush=True)
        if message.type in (Gst.MessageType.ERROR, Gst.MessageType.EOS):
            loop.quit()

    def obey():
        for number, _ in enumerate(sys.stdin):
            pipeline.set_state(Gst.State.PLAYING if number % 2 else Gst.State.PAUSED)

    pipeline.get_by_name("sink").connect("handoff", show)
    bus = pipeline.get_bus()
    bus.add_signal_watch()
    bus.connect("message", hear)
    pipeline.set_state(Gst.State.PLAYING)
    threading.Thread(target=obey, daemon=True).start()
    loop.run()
    pipeline.set_state(Gst.State.NULL)
    return status[0]


sys.exit(main())
