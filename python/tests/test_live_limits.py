"""The limits of the live page's server: connections without a request, too many connections, and a browser that does
not read."""
import socket
import time
import unittest

from given import with_program
from live_server import PATIENCE, Live
from test_live_server import WithHarbour, with_server
from web_socket import WebSocket

CONNECTIONS = 100           # in addition to those of browsers (SECURITY.md)


def is_ended(one: socket.socket) -> bool:
    """Returns whether the server has ended a connection."""
    one.settimeout(PATIENCE)
    try:
        return not one.recv(1)
    except ConnectionResetError:
        return True


@with_program
@with_server
class Limits(WithHarbour):
    def connect(self, server: Live, words: bytes = b"") -> socket.socket:
        """Returns a connection that sends some bytes but no complete request."""
        found = socket.create_connection(("127.0.0.1", server.port), PATIENCE)
        self.addCleanup(found.close)
        found.sendall(words)
        return found

    def test_connections_without_a_request_are_ended(self) -> None:
        server = self.live("--log", "log")
        head = b"POST /login HTTP/1.1\r\nHost: 127.0.0.1\r\nContent-Length: 50\r\n\r\ntoken="
        for words in (b"", b"GET / HTTP/1.1\r\nHost: 127.0.0.1\r\n", head):
            one = self.connect(server, words)
            if words == head:
                one.settimeout(PATIENCE)
                self.assertIn(b" 408 ", one.recv(1 << 16))
            else:
                self.assertTrue(is_ended(one))
        self.assertEqual(server.ask("/healthz")[0], 200)

    def test_more_connections_than_the_limit_are_refused(self) -> None:
        server = self.live("--log", "log", "--browsers", "1")
        browser = WebSocket(server.port)
        self.addCleanup(browser.close)
        held = [self.connect(server) for _ in range(CONNECTIONS)]
        self.assertTrue(is_ended(self.connect(server)))
        for one in held:
            one.close()
        self.assertEqual(browser.take()["kind"], "snapshot")

        def is_open_again() -> bool:
            try:
                return server.ask("/healthz")[0] == 200
            except OSError:
                return False

        self.until(is_open_again)

    def test_a_browser_that_does_not_read_is_disconnected(self) -> None:
        server = self.live("--log", "log")
        self.grow("log", "".join(self.lines[:700]))
        self.until(lambda: server.json("/healthz")["lines"] == 700)
        slow = WebSocket(server.port, buffer=2048)
        self.addCleanup(slow.close)
        self.until(lambda: server.json("/healthz")["browsers"] == 1)
        for first in range(700, len(self.lines), 50):
            self.grow("log", "".join(self.lines[first:first + 50]))
            time.sleep(0.05)
        self.until(lambda: server.json("/healthz")["browsers"] == 0)
        self.assertEqual(server.ask("/healthz")[0], 200)


if __name__ == "__main__":
    unittest.main()
