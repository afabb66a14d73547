"""A lease service and three nodes that ask it which of them is primary."""
import contextlib
import gc
import itertools
import signal
import socket
import socketserver
import sqlite3
import threading
import time

from .cases import holds
from .listening import Listening
from .node import KEEP_ALL, SERVICE, Node
from .outcomes import Wrong
from .service import Service
from .sqlite import connect, in_mode
from .waiting import until
from .workload import insert


class Cluster:
    """The first two are candidates, and the first begins the cluster: it is primary and has a table t(a, b, c); all are level. Each reaches the service by a door
    of its own. `keep`: how many files each log has. `folder`: where the first runs."""

    def __init__(self, mode, keep=KEEP_ALL, folder=None):
        self.stack = contextlib.ExitStack()
        self.keys = itertools.count(1)
        try:
            self.service = self.stack.enter_context(self.makes_service())
            self.doors = {}
            self.nodes = [self.node(True, keep, folder, bootstrap=True), self.node(True, keep), self.node(False, keep)]
            self.begin(mode)
        except BaseException:
            self.stack.close()
            raise

    def __enter__(self):
        return self

    def __exit__(self, *_):
        self.stack.close()

    def makes_service(self):
        return Service(ttl=4000)

    def makes_door(self):
        return Door(self.service)

    def node(self, candidate, keep, folder=None, bootstrap=False):
        door = self.stack.enter_context(self.makes_door())
        node = self.stack.enter_context(Node(service=door, candidate=candidate, bootstrap=bootstrap, keep=keep, folder=folder,
                                              starts=False))
        self.doors[node] = door
        return node

    @contextlib.contextmanager
    def cut_off(self, node):
        """The node can't reach the service meanwhile, and so isn't told that its lease is lost."""
        self.doors[node].open = False
        try:
            yield
        finally:
            self.doors[node].open = True

    def begin(self, mode):
        first, *others = self.nodes
        first.start()
        until(lambda: self.primary() is first and made(first, mode), 'the first candidate is primary, and takes writes')
        for other in others:
            other.start()
        self.level(first)

    def primary(self):
        """The node of the grant that stands, None where there is none."""
        return self.holder(self.service.info())

    def holder(self, grant):
        return next((it for it in self.nodes if (grant or {}).get('host') == f'db{it.port}'), None)

    def heir(self, primary):
        """The other candidate."""
        return next(it for it in self.nodes[:2] if it is not primary)

    def follows(self, old=None):
        """Waits until a node other than the old one is primary and takes writes, and answers it."""
        def found():
            primary = self.primary()
            return primary if primary not in (None, old) and self.writes(primary) else None
        return until(found, 'a node is primary and takes writes')

    def at_work(self):
        """A primary, and a writer that is at work there."""
        def found():
            primary = self.follows()
            writer = Writer(self, primary)
            return (primary, writer) if writer.goes_on() else None
        return until(found, 'a writer is at work')

    def writes(self, node):
        """Whether the node takes a row."""
        return takes(node, *insert(next(self.keys)))

    def takers(self):
        """The nodes that take a row now."""
        return [it for it in self.nodes if self.writes(it)]

    def one_takes(self):
        """The node that takes a write, and has a grant that stands meanwhile (`look`)."""
        return self.look()[0]

    def look(self):
        """Tries a write at each node between two looks at the grant: where one stands meanwhile, its holder alone takes it, and where
        the service is away meanwhile, one node at most. Answers that holder, None where there is none, and who took it."""
        before, took, after = self.service.info(), self.takers(), self.service.info()
        if before is None and after is None:
            holds(len(took) < 2, 'two nodes take writes while nobody is granted a term')
        if not before or not after or (before['term'], before['host']) != (after['term'], after['host']):
            return None, took
        holder = self.holder(before)
        holds(set(took) <= {holder}, 'a write at a node while another one\'s grant stands')
        return holder, took

    def refuses(self, node):
        """Another node's grant stands, and this one takes no write."""
        until(lambda: self.one_takes() not in (None, node), 'another node is primary')

    def has_one(self):
        """The same at each look, until there has been a grant for two leases' time."""
        until(self.one_takes, 'a node is primary')
        since = time.monotonic()
        while time.monotonic() < since + 2 * self.service.ttl / 1000:
            self.one_takes()

    def level(self, primary, without=None):
        for other in self.nodes:
            if other not in (primary, without):
                primary.level(other)

    def ends(self, kept):
        """A node takes writes, all is level, and these rows are there. Answers the node."""
        primary = self.follows()
        self.level(primary)
        for node in self.nodes:
            holds(kept <= keys(node), 'rows that the new primary had are there')
        return primary


class Writer:
    """Writes rows at a node, one after another, until one is refused. `answered`: the keys of those that were taken."""

    def __init__(self, cluster, node):
        self.cluster, self.node, self.answered = cluster, node, []
        self.thread = threading.Thread(target=self.go, daemon=True)
        self.thread.start()
        until(lambda: len(self.answered) > 5 or not self.goes_on(), 'the writer is at work')

    def goes_on(self):
        return self.thread.is_alive()

    def go(self):
        with contextlib.suppress(sqlite3.Error), contextlib.closing(connect(self.node.socket, 1)) as connection:
            for key in self.cluster.keys:
                connection.execute(*insert(key))
                self.answered.append(key)

    def ended(self):
        until(lambda: not self.goes_on(), 'the writer is refused')
        return list(self.answered)


@contextlib.contextmanager
def standing_still(node):
    """The node's process is stopped meanwhile. What this script has left of connections is closed before: to close one asks the node, and
    whoever waits here for an answer of it waits for itself. (Seen once: a case hung in SQLite's close of such a connection. Why it came
    then, perhaps with its last cursor, was not seen.)"""
    gc.collect()
    node.process.send_signal(signal.SIGSTOP)
    try:
        yield
    finally:
        node.process.send_signal(signal.SIGCONT)


def takes(node, *statement):
    """Whether the node takes this statement."""
    try:
        with contextlib.closing(connect(node.socket, 1)) as connection:
            connection.execute(*statement)
        return True
    except sqlite3.Error:
        return False


def made(node, mode):
    try:
        in_mode(node.socket, mode).close()
        return True
    except (sqlite3.Error, Wrong):
        return False


def keys(node):
    with contextlib.closing(connect(node.socket)) as connection:
        return {it for it, in connection.execute('select a from t')}


class Door(Listening):
    """Stands before a lease service, and passes links on while it is open."""

    def __init__(self, service):
        self.service, self.ttl, self.open = service, service.ttl, True
        super().__init__(Passing)
        self.told = SERVICE.format(port=self.port)


class Passing(socketserver.BaseRequestHandler):
    def handle(self):
        with contextlib.suppress(OSError), socket.socket() as other:
            if self.server.open:
                other.connect(('127.0.0.1', self.server.service.port))
                threading.Thread(target=passed, args=(self.request, other), daemon=True).start()
                passed(other, self.request)


def passed(source, to):
    """Passes on what comes, to its end."""
    with contextlib.suppress(OSError):
        while text := source.recv(65536):
            to.sendall(text)
        to.shutdown(socket.SHUT_WR)


class Nonsense(socketserver.BaseRequestHandler):
    """Answers each link with the next thing that is no answer of a lease service."""
    texts = (b'', bytes(300), b'HTTP/1.1 200 OK\r\nContent-Length: 2\r\n\r\n{}', b'HTTP/1.1 200 OK\r\nContent-Length: 5\r\n\r\nhello',
             b'HTTP/1.1 200 OK\r\nContent-Length: 9000000000\r\n\r\n{', b'HTTP/1.1 500 Internal Server Error\r\n\r\n', b'HTTP/1.1 404',
             b'HTTP/1.1 200 OK\r\n\r\n{"ttl":"long"}', b'HTTP/1.1 200 OK\r\nContent-Length: 1\r\nContent-Length: 2\r\n\r\n{}')

    def handle(self):
        with contextlib.suppress(OSError):
            self.request.recv(4096)
            self.server.links += 1
            self.request.sendall(self.texts[self.server.links % len(self.texts)])


class Server(Listening):
    """Answers so at a port. `links`: how many it has had."""

    def __init__(self, port):
        self.links = 0
        super().__init__(Nonsense, port)
