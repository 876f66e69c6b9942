#!/usr/bin/env python3
"""Starts the server as a settings file says: the service runs this.

The films are files of the current folder. The command that is run is printed first. A setting
that isn't understood is refused with its line and what would be right, and nothing is started
(status 78).
"""

import argparse
import os
import resource
import shlex
import socket
import sys
from pathlib import Path

sys.dont_write_bytecode = True

from vodtools.program import ProgramError, find_program  # noqa: E402
from vodtools.settings import Settings, SettingsError  # noqa: E402

BAD_SETTINGS = 78
# Another start may succeed, as soon as another program gives the port back.
PORT_IN_USE = 75

# What the server needs of memory, in bytes, as measured (bench/README.md): at rest, for each
# connection, for each entry of the journal, and for each byte of a film with its table.
MEMORY_AT_REST = 16_000_000
MEMORY_OF_A_CONNECTION = 250_000
MEMORY_OF_AN_ENTRY = 100
MEMORY_OF_A_FILM = 1.05

# File descriptors: three for a connection, and some for the program.
FILES_OF_A_CONNECTION = 3
OTHER_FILES = 32


class LimitError(Exception):
    """A limit of the system is too low for the settings."""


class PortInUse(Exception):
    """Another program has the port."""


def check_port(settings):
    """Refuses a port that can't be opened now."""
    host = "127.0.0.1" if settings.bind == "local" else "0.0.0.0"
    with socket.socket() as asked:
        asked.setsockopt(socket.SOL_SOCKET, socket.SO_REUSEADDR, 1)
        try:
            asked.bind((host, settings.port))
        except PermissionError as error:
            raise LimitError(
                f"{settings.place_of('port')}: only root may open port {settings.port}: use a port"
                " from 1024 on, for example 'port = 8554'"
            ) from error
        except OSError as error:
            raise PortInUse(
                f"{settings.place_of('port')}: port {settings.port}: {error.strerror}: stop the"
                " other program, or use another port"
            ) from error


def memory_limit(own="/proc/self/cgroup", groups="/sys/fs/cgroup"):
    """Returns the bytes of memory that the service may have, or None if there is no limit.

    The limit is the least of the service's control group and of those above it.
    """
    limits = []
    try:
        lines = Path(own).read_text(encoding="ascii").splitlines()
    except OSError:
        return None
    for line in lines:
        if line.startswith("0::"):
            folder = Path(groups) / line[3:].lstrip("/")
            for place in (folder, *folder.parents):
                file = place / "memory.max"
                text = file.read_text(encoding="ascii").strip() if file.is_file() else "max"
                limits += [int(text)] if text.isdigit() else []
    return min(limits, default=None)


def memory_of(settings):
    """Returns about how many bytes of memory the server needs with all connections in use."""
    largest = max((os.stat(f"{settings.folder}/{it}").st_size for it in settings.films), default=0)
    films = int(settings.film_bytes() * MEMORY_OF_A_FILM) + largest
    connections = settings.workers * MEMORY_OF_A_CONNECTION
    return MEMORY_AT_REST + films + connections + settings.journal * MEMORY_OF_AN_ENTRY


def check_memory(settings):
    """Returns the memory that is needed, and refuses settings that need more than is allowed."""
    needed, limit = memory_of(settings), memory_limit()
    if limit is not None and needed > limit:
        raise LimitError(
            f"{settings.file}: {len(settings.films)} films and {settings.workers} workers need"
            f" about {needed // 10**6:,} MB, and the service may have {limit // 10**6:,} MB:"
            " name fewer films, or raise MemoryMax= by 'systemctl edit vodserve'"
        )
    return needed


def raise_files(settings):
    """Lets the server open as many files as its workers need."""
    needed = settings.workers * FILES_OF_A_CONNECTION + OTHER_FILES
    soft, hard = resource.getrlimit(resource.RLIMIT_NOFILE)
    if hard not in (resource.RLIM_INFINITY, -1) and needed > hard:
        raise LimitError(
            f"{settings.file}: {settings.workers} workers need {needed} open files, and the service"
            f" may have {hard}: set 'workers = {(hard - OTHER_FILES) // FILES_OF_A_CONNECTION}',"
            " or raise LimitNOFILE= by 'systemctl edit vodserve'"
        )
    if soft < needed:
        resource.setrlimit(resource.RLIMIT_NOFILE, (needed, hard))


def read_arguments():
    parser = argparse.ArgumentParser(description=__doc__.split("\n\n")[0])
    parser.add_argument("settings", help="the settings file, as examples/vodserve.conf")
    parser.add_argument("--check", action="store_true", help="print the command and start nothing")
    parser.add_argument("--program", help="the program to run; default: the one that belongs here")
    parser.add_argument("--folder", default=".", help="the films' folder; default: the current one")
    return parser.parse_args()


def main():
    given = read_arguments()
    try:
        program = find_program(given.program)
        settings = Settings(given.settings, given.folder)
        needed = check_memory(settings)
        raise_files(settings)
        if not given.check:
            check_port(settings)
    except PortInUse as error:
        print(f"vodserve-start: {error}", file=sys.stderr)
        return PORT_IN_USE
    except (ProgramError, SettingsError, LimitError) as error:
        print(f"vodserve-start: {error}", file=sys.stderr)
        return BAD_SETTINGS
    call = [program, *settings.arguments()]
    print(f"vodserve-start: needs about {needed // 10**6:,} MB of memory", flush=True)
    print(f"vodserve-start: {shlex.join(call)}", flush=True)
    if given.check:
        return 0
    os.chdir(given.folder)
    os.execv(program, call)


if __name__ == "__main__":
    sys.exit(main())
