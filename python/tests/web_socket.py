"""A WebSocket (RFC 6455) to a server, for tests; it reads as slowly as a test needs."""
import base64
import json
import os
import socket
import struct
from typing import Any


class Refused(Exception):
    """The server refused the connection; its text is the status."""


class WebSocket:
    """A connection. Its `state` is the snapshot with the changes so far, its `numbers` are those of all changes
    received, in order."""

    def __init__(self, port: int, query: str = "", origin: str | None = None, headers: str = "",
                 buffer: int | None = None) -> None:
        self.socket = socket.socket()
        if buffer:
            self.socket.setsockopt(socket.SOL_SOCKET, socket.SO_RCVBUF, buffer)
        self.socket.settimeout(60)
        self.socket.connect(("127.0.0.1", port))
        key = base64.b64encode(os.urandom(16)).decode()
        asked = (f"GET /ws{query} HTTP/1.1\r\nHost: 127.0.0.1:{port}\r\nUpgrade: websocket\r\nConnection: "
                 f"Upgrade\r\nSec-WebSocket-Key: {key}\r\n"
                 "Sec-WebSocket-Version: "
                 f"13\r\n{f'Origin: {origin}' + chr(13) + chr(10) if origin else ''}{headers}\r\n")
        self.socket.sendall(asked.encode())
        self.held = b""
        head = self.until(b"\r\n\r\n").decode()
        if " 101 " not in head.split("\r\n")[0]:
            self.close()
            raise Refused(head.split("\r\n")[0].split(" ", 1)[1])
        self.epoch, self.number = "", -1
        self.alarms: dict[str, Any] = {}
        self.came: list[str] = []           # the names of alarms, in the order of first arrival
        self.vessels: dict[int, Any] = {}
        self.snapshots = 0
        self.numbers: list[int] = []

    def until(self, end: bytes) -> bytes:
        """Returns the bytes up to an end, and the end."""
        while end not in self.held:
            piece = self.socket.recv(1 << 16)
            if not piece:
                raise EOFError("the server closed the connection")
            self.held += piece
        at = self.held.index(end) + len(end)
        found, self.held = self.held[:at], self.held[at:]
        return found

    def exactly(self, count: int) -> bytes:
        """Returns this number of bytes."""
        while len(self.held) < count:
            piece = self.socket.recv(1 << 16)
            if not piece:
                raise EOFError("the server closed the connection")
            self.held += piece
        found, self.held = self.held[:count], self.held[count:]
        return found

    def frame(self) -> tuple[int, bytes]:
        """Returns the kind and the content of the next frame."""
        head = self.exactly(2)
        size = head[1] & 127
        if size == 126:
            size = struct.unpack("!H", self.exactly(2))[0]
        elif size == 127:
            size = struct.unpack("!Q", self.exactly(8))[0]
        return head[0] & 15, self.exactly(size)

    def send(self, kind: int, content: bytes) -> None:
        """Sends a frame, with the mask that RFC 6455 requires of a client."""
        mask = os.urandom(4)
        size = (
            struct.pack("!BB", 0x80 | kind, 0x80 | len(content))
            if len(content) < 126
            else struct.pack("!BBH", 0x80 | kind, 0x80 | 126, len(content))
        )
        self.socket.sendall(size + mask + bytes(value ^ mask[k % 4] for k, value in enumerate(content)))

    def message(self) -> Any:
        """Returns the next message; answers pings before it."""
        while True:
            kind, content = self.frame()
            if kind == 1:
                return json.loads(content)
            if kind == 9:
                self.send(10, content)
            if kind == 8:
                raise EOFError("the server closed the connection")

    def take(self) -> Any:
        """Adds the next message to the state, and returns it."""
        told = self.message()
        if told["kind"] == "snapshot":
            self.snapshots += 1
            self.epoch, self.number = told["epoch"], told["n"]
            self.alarms, self.vessels = {}, {values[0]: values for values in told["vessels"]}
            self.note(told)
        else:
            for change in told["changes"]:
                self.numbers.append(change["n"])
                self.number = change["n"]
                self.vessels.update({values[0]: values for values in change.get("vessels", ())})
                for name in change.get("dropped", ()):
                    self.alarms.pop(name, None)
                self.note(change)
        return told

    def note(self, told: Any) -> None:
        """Takes the alarms of a message."""
        for alarm in told.get("alarms", ()):
            if alarm["id"] not in self.came:
                self.came.append(alarm["id"])
            self.alarms[alarm["id"]] = alarm

    def close(self) -> None:
        """Ends the connection without a message, like a cut cable."""
        self.socket.close()
