"""Readers that are inside a snapshot most of the time, and a watch over where a node stands."""
import contextlib
import threading
import time

from .cases import same
from .sqlite import connect

HELD = 0.02


def rows(connection):
    return connection.execute('select count(*), sum(a) from t').fetchone()


class Readers:
    """Threads that read one snapshot after another at a node, each for 20 ms, until the block ends. `read`: how many snapshots; `longest`:
    the longest wait for one, in seconds; `errors`: what went wrong. `busy`: how many seconds one waits for a lock."""

    def __init__(self, node, count=4, busy=1):
        self.node, self.busy, self.going, self.read, self.longest, self.errors = node, busy, True, 0, 0.0, []
        self.threads = [threading.Thread(target=self.go) for _ in range(count)]

    def __enter__(self):
        for it in self.threads:
            it.start()
        return self

    def __exit__(self, *_):
        self.going = False
        for it in self.threads:
            it.join()

    def go(self):
        try:
            with contextlib.closing(connect(self.node.socket, self.busy)) as at:
                while self.going:
                    self.read_one(at)
        except Exception as error:
            self.errors.append(error)

    def read_one(self, at):
        asked = time.monotonic()
        at.execute('begin')
        seen = rows(at)
        self.longest = max(self.longest, time.monotonic() - asked)
        time.sleep(HELD)
        same(rows(at), seen, 'what a reader sees while it is inside')
        at.execute('commit')
        self.read += 1


class Watch(threading.Thread):
    """Notes when the node comes to stand at each transaction (`seen`), until the block ends. It looks each `every` seconds."""

    def __init__(self, node, every=0.002):
        super().__init__(daemon=True)
        self.node, self.every, self.going, self.seen = node, every, True, {}

    def __enter__(self):
        self.start()
        return self

    def __exit__(self, *_):
        self.going = False
        self.join()

    def run(self):
        with self.node.watched() as position:
            while self.going:
                self.seen.setdefault(position().txid, time.monotonic())
                time.sleep(self.every)
