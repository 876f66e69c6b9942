#!/usr/bin/env python3
"""A server of gst-rtsp-server (Debian package gir1.2-gst-rtsp-server-1.0): gst_server.py PORT NAME FILM [STREAM]

Serves FILM, MPEG-1 video in Matroska, as rtsp://127.0.0.1:PORT/NAME to any number of clients, each with a pipeline of its
own that begins at the film's first picture. Its one stream is called STREAM, or `stream=0` as this server calls it. Runs
until it is stopped. (A file of video alone has no times, and would be sent at once.)
"""

import sys
from pathlib import Path

import gi

gi.require_version("Gst", "1.0")
gi.require_version("GstRtspServer", "1.0")
from gi.repository import GLib, Gst, GstRtspServer  # noqa: E402 (the versions are asked for before)

# rtpmpvpay packs bytes of either kind alike, but takes only what is called MPEG-2.
PIPELINE = (
    "( filesrc location={film} ! matroskademux ! mpegvideoparse ! capssetter caps=video/mpeg,mpegversion=(int)2"
    " ! rtpmpvpay name=pay0 pt=32 )"
)


def main():
    port, name, film = sys.argv[1], sys.argv[2], Path(sys.argv[3]).resolve()
    Gst.init(None)
    server = GstRtspServer.RTSPServer()
    server.set_address("127.0.0.1")
    server.set_service(port)
    # So many connections may wait to be taken: all clients come at once.
    server.set_backlog(512)
    factory = GstRtspServer.RTSPMediaFactory()
    factory.set_launch(PIPELINE.format(film=film))
    if sys.argv[4:]:
        factory.connect("media-constructed", lambda _, media: media.get_stream(0).set_control(sys.argv[4]))
    server.get_mount_points().add_factory("/" + name, factory)
    server.attach(None)
    GLib.MainLoop().run()


main()
