"""A door before a node's HTTP port, at which a forwarded commit, or what the node replies to it, can be lost."""
import contextlib
import re
import socket
import socketserver
import threading

from .cluster import passed
from .listening import Listening
from .relay import exactly

COMMIT = b'POST /tx '


class Losing(Listening):
    """Passes links on to the node, whose follower dials it by this `port`."""

    def __init__(self, node):
        self.node, self.loses, self.front, self.said = node, False, None, []
        super().__init__(Passing)

    @contextlib.contextmanager
    def lost(self, front):
        """Meanwhile so many bytes come back of each reply to a commit, and where `front` is None the commit isn't passed on. The block is
        given a list of what the node said, each time whole."""
        self.loses, self.front, self.said = True, front, []
        try:
            yield self.said
        finally:
            self.loses = False


class Passing(socketserver.BaseRequestHandler):
    def handle(self):
        with contextlib.suppress(OSError), socket.create_connection(('127.0.0.1', self.server.node.port)) as node:
            text = exactly(self.request, len(COMMIT))
            if text == COMMIT and self.server.loses:
                return self.lose(text, node)
            node.sendall(text)
            threading.Thread(target=passed, args=(self.request, node), daemon=True).start()
            passed(node, self.request)

    def lose(self, text, node):
        asked = whole(text, self.request)
        if self.server.front is None:
            return
        node.sendall(asked)
        said = b''.join(iter(lambda: node.recv(65536), b''))
        self.server.said.append(said)
        self.request.sendall(said[:self.server.front])


def whole(text, link):
    """The bytes of a request that begins so."""
    while b'\r\n\r\n' not in text:
        more = link.recv(1)
        if not more:
            raise ConnectionError('a request that ends in its head')
        text += more
    length = int(re.search(rb'\r\nContent-Length: (\d+)\r\n', text)[1])
    return text + exactly(link, length)
