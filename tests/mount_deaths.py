#!/usr/bin/python3
"""A client of a mounted database is killed at each of its changing messages, while two other connections stay open: these
see one and the same number of rows, and nothing that was acknowledged is lost.

At most: 900 seconds.
Seen to fail: with no header told before WRITE is given up (WAL, killed at its message 30: the two that stay open miss the
rows of a commit that was made)"""
import mmap
import os
import shutil
import signal
import sqlite3
import struct

from support import Node, Relay, holds, length, run, same, seen_by
from support.mount import WAYS, Mount, ended, in_each_way, need_mount
from support.relay import whole

ROWS = 25
# at which of its messages the client dies: each one around the commit, others now and then; in the gate every second of
# these by the one way of shared memory, the others by the other
POINTS = {'wal': [*range(1, 25, 8), *range(26, 40), *range(44, 200, 16)], 'delete': [*range(1, 200, 6)]}
CODE = f'''
sys.stdin.readline()
c = connect()
c.execute('pragma cache_size=5')
c.execute('pragma wal_autocheckpoint=12')
c.execute('begin')
for i in range({ROWS}): c.execute('insert into t(b,c) values(?,zeroblob(900))', (i,))
c.execute('commit')
said('A')
c.close()
'''
CHANGING = {4, 10, 14, 16, 18, 20, 25, 32, 35}
ENDING = {18, 25}
LOOKUP_OF_NOTHING = 1, b'nothing\0'


class Deadly:
    """Between mount and node, in a process of its own: this one is held while it starts a client. Kills the victim at its
    n-th changing message, which is then turned into one that changes nothing; the files of a process that dies are
    closed as they are."""

    def __init__(self, node):
        self.order = mmap.mmap(-1, 16)
        said, says = os.pipe()
        self.process = os.fork()
        if self.process == 0:
            serve(node, self.order, says)
        os.close(says)
        self.socket = os.read(said, 4096).decode()
        os.close(said)

    def __enter__(self):
        return self

    def __exit__(self, *_):
        os.kill(self.process, signal.SIGKILL)
        os.waitpid(self.process, 0)
        shutil.rmtree(os.path.dirname(self.socket))

    def kill(self, victim, at):
        self.order[:8] = struct.pack('<II', victim, at)


def serve(node, order, says):
    """The other process, until it is killed."""
    try:
        relay = Killing(node, order)
        os.write(says, relay.socket.encode())
        while True:
            signal.pause()
    finally:
        os._exit(1)


class Killing(Relay):
    def __init__(self, node, order):
        self.order = order
        super().__init__(node)

    def requests(self, client, node):
        try:
            while message := whole(client):
                node.sendall(self.passed(message))
        except OSError:
            pass

    def passed(self, message):
        opcode, pid = struct.unpack_from('<I', message, 4)[0], struct.unpack_from('<I', message, 32)[0]
        victim, left = struct.unpack('<II', self.order[:8])
        if pid != victim or opcode not in CHANGING or left == 0:
            return message
        self.order[:8] = struct.pack('<II', victim, left - 1)
        if left > 1:
            return message
        os.kill(pid, signal.SIGKILL)
        return message if opcode in ENDING else harmless(message)


def harmless(message):
    opcode, name = LOOKUP_OF_NOTHING
    head = struct.pack('<II8sQ', 40 + len(name), opcode, message[8:16], 1) + message[24:40]
    return head + name


def chosen(way):
    """The points at which the client dies, in order, by mode."""
    first, step = length((WAYS.index(way), len(WAYS)), (0, 1))
    return {mode: points[first::step] for mode, points in POINTS.items()}


def deaths(way):
    for mode, points in chosen(way).items():
        with Node() as node, Deadly(node) as relay, Mount(node, way, socket=relay.socket) as mount:
            watching, working = mount.in_mode(mode), mount.connect()
            working.execute('insert into t values(1,1,1)')
            rows, tried = 1, 0
            for at in points:
                before = node.position().txid
                client = mount.client(CODE, stdin=-1)
                relay.kill(client.pid, at)
                client.stdin.write('go\n')
                client.stdin.flush()
                status, said = ended(client)
                made = node.position().txid - before
                rows += ROWS * made
                seen = [number(it) for it in (watching, working)]
                same(seen, [rows, rows], f'rows, {mode}, killed at its message {at}')
                holds('A' not in said or made == 1, f'an acknowledged commit is there, {mode}, {at}')
                working.execute('update t set b=b+1 where a=1')
                if status == 0:
                    break
                tried += 1
            holds(tried > 2, f'died {tried} times')
            seen = seen_by(working)
            watching.close()
            working.close()
            node.sound(seen)


def number(connection):
    try:
        return connection.execute('select count(*) from t').fetchone()[0]
    except sqlite3.Error as error:
        return str(error)


need_mount()
run(in_each_way(deaths=deaths))
