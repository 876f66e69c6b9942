"""A small RTSP client: requests and replies over one connection, without media."""

import socket
from collections import namedtuple

Reply = namedtuple("Reply", "code reason fields body")

MOST_HEAD = 65_536


class RtspError(Exception):
    """The server can't be reached, or its answer isn't one of RTSP 1.0."""


class Client:
    """One connection to a server; use it in a `with` block."""

    def __init__(self, host, port, timeout=5):
        self.host, self.port, self.number, self.data = host, port, 0, b""
        try:
            self.socket = socket.create_connection((host, port), timeout)
        except OSError as error:
            why = error.strerror or str(error) or "no answer"
            raise RtspError(f"{host}:{port}: {why}") from error

    def __enter__(self):
        return self

    def __exit__(self, *_):
        self.socket.close()

    def url_of(self, film):
        return f"rtsp://{self.host}:{self.port}/{film}"

    def ask(self, method, url, fields=(), body=b""):
        """Sends a request and returns its reply."""
        self.number += 1
        lines = [f"{method} {url} RTSP/1.0", f"CSeq: {self.number}"]
        lines += [f"{name}: {value}" for name, value in fields]
        if body:
            lines.append(f"Content-Length: {len(body)}")
        request = "\r\n".join(lines + ["", ""]).encode("ascii") + body
        try:
            self.socket.sendall(request)
            return self.read_reply(method)
        except OSError as error:
            why = error.strerror or "no answer in time"
            raise RtspError(f"{self.host}:{self.port}: {method}: {why}") from error

    def receive(self, method):
        data = self.socket.recv(65_536)
        if not data:
            raise RtspError(f"{self.host}:{self.port}: {method}: the server closed the connection")
        self.data += data

    def read_reply(self, method):
        while b"\r\n\r\n" not in self.data:
            if len(self.data) > MOST_HEAD:
                raise RtspError(f"{self.host}:{self.port}: {method}: a reply without end")
            self.receive(method)
        head, _, self.data = self.data.partition(b"\r\n\r\n")
        code, reason, fields = read_head(head.decode("latin-1"), f"{self.host}:{self.port}")
        length = int(fields.get("content-length", "0"))
        while len(self.data) < length:
            self.receive(method)
        body, self.data = self.data[:length], self.data[length:]
        return Reply(code, reason, fields, body.decode("latin-1"))


def read_fields(lines):
    """Returns the fields of a text, names in lower case; the first of a name counts."""
    fields = {}
    for line in lines:
        name, _, value = line.partition(":")
        fields.setdefault(name.strip().lower(), value.strip())
    return fields


def read_head(text, server):
    """Returns code, reason and fields of a reply's head."""
    first, *lines = text.split("\r\n")
    version, code, reason = (first.split(" ", 2) + ["", ""])[:3]
    fields = read_fields(lines)
    if version != "RTSP/1.0" or not code.isdigit() or not fields.get(
        "content-length", "0"
    ).isdigit():
        raise RtspError(f"{server}: the answer isn't RTSP/1.0: '{first[:60]}'")
    return int(code), reason, fields
