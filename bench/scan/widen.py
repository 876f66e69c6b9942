#!/usr/bin/env python3
"""Writes a film with the pictures of another one and longer slices: widen.py FILM BYTES NEW

After each slice stand BYTES more bytes FF. A start code has no such byte but as its kind, so the new film has the same
pictures and slices.
"""

import sys

PREFIX = b"\0\0\1"


def main():
    with open(sys.argv[1], "rb") as film:
        pieces = film.read().split(PREFIX)
    more = b"\xff" * int(sys.argv[2])
    with open(sys.argv[3], "wb") as new:
        new.write(pieces[0])
        for piece in pieces[1:]:
            new.write(PREFIX + piece)
            if 0x01 <= piece[0] <= 0xAF:
                new.write(more)


main()
