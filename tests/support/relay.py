"""A socket before a node's, which passes messages on and can end a client at a chosen one."""
import os
import shutil
import signal
import socket
import struct
import tempfile
import threading

from .wire import GETATTR, GETLK, LOOKUP, READ

ASKING = (LOOKUP, GETATTR, READ, GETLK)


class Relay:
    """Listens on a socket of its own. `fatal`: the client process that sends the changing message of that number, counted
    from 1 over all links, is killed before the message is passed on."""

    def __init__(self, node, fatal=None):
        self.folder = tempfile.mkdtemp(prefix='litefs-relay-')
        self.socket = os.path.join(self.folder, os.path.basename(node.socket))
        self.target = node.socket
        self.fatal = fatal
        self.count = 0
        self.lock = threading.Lock()
        self.listener = socket.socket(socket.AF_UNIX)
        self.listener.bind(self.socket)
        self.listener.listen(64)
        threading.Thread(target=self.accept, daemon=True).start()

    def __enter__(self):
        return self

    def __exit__(self, *_):
        ended(self.listener)
        self.listener.close()
        shutil.rmtree(self.folder, ignore_errors=True)

    def accept(self):
        while True:
            try:
                client, _ = self.listener.accept()
            except OSError:
                return
            threading.Thread(target=self.link, args=(client,), daemon=True).start()

    def link(self, client):
        node = socket.socket(socket.AF_UNIX)
        try:
            node.connect(self.target)
        except OSError:
            client.close()
            return
        threading.Thread(target=copied, args=(node, client), daemon=True).start()
        self.requests(client, node)
        for one in (client, node):
            ended(one)

    def requests(self, client, node):
        try:
            while (message := whole(client)) and not self.is_fatal(message, client):
                node.sendall(message)
        except OSError:
            pass

    def is_fatal(self, message, client):
        if struct.unpack_from('<I', message, 4)[0] in ASKING:
            return False
        with self.lock:
            self.count += 1
            if self.count != self.fatal:
                return False
        os.kill(peer(client), signal.SIGKILL)
        return True


def whole(client):
    """The next message, nothing at the end."""
    head = exactly(client, 4)
    return head and head + exactly(client, struct.unpack('<I', head)[0] - 4)


def exactly(client, count):
    text = b''
    while len(text) < count:
        more = client.recv(count - len(text))
        if not more:
            return b''
        text += more
    return text


def peer(client):
    """The process on the other side."""
    return struct.unpack('3i', client.getsockopt(socket.SOL_SOCKET, socket.SO_PEERCRED, 12))[0]


def copied(source, sink):
    try:
        while text := source.recv(65536):
            sink.sendall(text)
    except OSError:
        pass
    ended(sink)


def ended(one):
    try:
        one.shutdown(socket.SHUT_RDWR)
    except OSError:
        pass
