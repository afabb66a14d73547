"""FUSE messages over a node's socket, as docs/FORMATS.md has them."""
import socket
import struct

LOOKUP, GETATTR, SETATTR, UNLINK, OPEN, READ, WRITE = 1, 3, 4, 10, 14, 15, 16
RELEASE, FSYNC, FLUSH, INIT, GETLK, SETLK, SETLKW, CREATE, DESTROY = 18, 20, 25, 26, 31, 32, 33, 35, 38
ROOT_NODE = 1
READING, WRITING, NONE = 0, 1, 2
LARGEST_READ = 131072


class Refused(OSError):
    """A reply with an error number."""


class Link:
    """One session with a node. A request waits for its reply."""

    def __init__(self, path, seconds=60):
        self.socket = socket.socket(socket.AF_UNIX)
        self.socket.settimeout(seconds)
        try:
            self.socket.connect(path)
            self.replies = self.socket.makefile('rb')
            self.unique = 0
            self.ask(INIT, 0, struct.pack('<4I', 7, 31, 0, 0))
        except OSError:
            self.socket.close()
            raise

    def __enter__(self):
        return self

    def __exit__(self, *_):
        self.close()

    def close(self):
        self.replies.close()
        self.socket.close()

    def ask(self, opcode, node, body=b''):
        """The body of the reply; Refused with its error number."""
        self.unique += 1
        head = struct.pack('<IIQQIIII', 40 + len(body), opcode, self.unique, node, 0, 0, 0, 0)
        self.socket.sendall(head + body)
        length, error, _ = struct.unpack('<IiQ', self.taken(16))
        text = self.taken(length - 16)
        if error:
            raise Refused(-error, f'opcode {opcode} of node {node}')
        return text

    def taken(self, count):
        text = self.replies.read(count)
        if len(text) < count:
            raise ConnectionError('the node closed the link')
        return text

    def lookup(self, name):
        """The number of the file's node."""
        entry = self.ask(LOOKUP, ROOT_NODE, name.encode() + b'\0')
        return struct.unpack_from('<Q', entry)[0]

    def open(self, node, flags=0):
        """A handle of the file."""
        return struct.unpack_from('<Q', self.ask(OPEN, node, struct.pack('<II', flags, 0)))[0]

    def create(self, name):
        """The node and a handle of a new file."""
        made = self.ask(CREATE, ROOT_NODE, bytes(16) + name.encode() + b'\0')
        return struct.unpack_from('<Q', made)[0], struct.unpack_from('<Q', made, 128)[0]

    def read(self, node, handle, at=0, size=4096, owner=0):
        return self.ask(READ, node, struct.pack('<QQIIQII', handle, at, size, 2, owner, 0, 0))

    def write(self, node, handle, at, data, owner=0):
        body = struct.pack('<QQIIQII', handle, at, len(data), 2, owner, 0, 0)
        return self.ask(WRITE, node, body + data)

    def lock(self, node, handle, owner, kind, first, last):
        self.ask(SETLK, node, struct.pack('<QQQQIIII', handle, owner, first, last, kind, 0, 0, 0))

    def text(self, name):
        """All of a file of at most a read's size."""
        node = self.lookup(name)
        return self.read(node, self.open(node)).decode()
