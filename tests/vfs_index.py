#!/usr/bin/python3
"""The shared memory of WAL mode among processes, which the VFS mirrors: a connection that stays open sees what others commit, what
a checkpoint or a node does to the log, and what a client leaves that dies at any of its messages.

At most: 1200 seconds.
Seen to fail: with libraries that put in nothing behind a lock, that tell nothing before an unlock, that read the header alone, and
that read the first region alone (long_log)."""
import os
import subprocess
import sys
import tempfile

from support import Client, Node, connect, count, fill, holds, in_each_mode, in_mode, insert, length, places, run, same, seen_by, until
from support.client import PRELUDE

WRITER = '''
c.execute('pragma cache_size=5')
c.execute('pragma wal_autocheckpoint=12')
c.execute('begin')
for i in range(25): c.execute('insert into t(b,c) values(?,zeroblob(900))', (i,))
c.execute('commit')
said('A')
c.close()
'''
READER = '''
for line in sys.stdin:
    said('%d %d\\n' % c.execute('select count(*), sum(a) from t').fetchone())
'''
COMER = '''
c.execute('insert into t values({},1,1)')
said(str(c.execute('select count(*) from t').fetchone()[0]))
'''
MOST = 200


def for_tests():
    """The VFS that ends its process at a chosen message."""
    folder = os.path.join(tempfile.gettempdir(), f'litefs-tests-{os.getuid()}')
    places.need_compiler()
    build = os.path.join(places.ROOT, 'clients/litefs-vfs/build.sh')
    subprocess.run([build, '--test', folder], check=True, stdout=subprocess.DEVNULL, timeout=300)
    return os.path.join(folder, 'litefs-vfs-test.so')


def client_dies(step, when):
    """At its first changing message, then some later, to its end; two connections of another process are open all the time."""
    library = for_tests()
    with Node() as node:
        one, other = in_mode(node.socket, 'wal'), connect(node.socket)
        one.execute(*insert(1))
        rows = count(other)
        for fatal in range(1, MOST, step):
            before = node.position().txid
            status, said, _ = Client(node.socket, WRITER, {'LITEFS_VFS': library, 'LITEFS_DIE': f'0:0:{fatal}:{when}'}).ended()
            commits = node.position().txid - before
            holds('A' not in said or commits == 1, f'an acknowledged commit is there (dead at message {fatal})')
            rows += 25 * commits
            other.execute('update t set b=b+1 where a=1')  # it waits until the node has seen the dead client's end
            same((count(one), count(other)), (rows, rows), f'rows of both (dead at message {fatal})')
            one.execute('pragma wal_checkpoint(truncate)').fetchall()
            if status == 0:
                break
        holds(status == 0 and fatal > 30, f'the writer was killed at many messages and came to its end ({fatal}, {status})')
        same(seen_by(one), seen_by(other), 'what both see')
        node.sound(seen_by(other))


def dies_before():
    client_dies(length(9, 4), 'before')


def dies_after():
    client_dies(length(10, 5), 'after')


class Reader:
    """A process whose one connection stays open, and reads when it is asked."""

    def __init__(self, socket):
        self.process = subprocess.Popen([sys.executable, '-c', PRELUDE.format(tests=places.TESTS, socket=socket) + READER],
                                        stdin=subprocess.PIPE, stdout=subprocess.PIPE, text=True,
                                        env={**os.environ, 'LITEFS_VFS': places.vfs()})

    def __enter__(self):
        return self

    def __exit__(self, *_):
        self.process.kill()
        self.process.communicate()

    def sees(self):
        self.process.stdin.write('\n')
        self.process.stdin.flush()
        return tuple(int(it) for it in self.process.stdout.readline().split())


def wanted(connection):
    return connection.execute('select count(*), sum(a) from t').fetchone()


def each_commit_is_seen():
    """Over checkpoints of each kind and a log begun anew, by connections in turn, in a process that had read before."""
    with Node() as node, Reader(node.socket) as reader, Reader(node.socket) as seldom:
        one = in_mode(node.socket, 'wal')
        other = connect(node.socket)
        for turn in range(60):
            writer = (one, other)[turn % 2]
            writer.execute(*insert(turn, 2000))
            if turn % 5 == 4:
                kind = ('passive', 'full', 'restart', 'truncate')[turn // 5 % 4]
                writer.execute(f'pragma wal_checkpoint({kind})').fetchall()
            same(reader.sees(), (turn + 1, turn * (turn + 1) // 2), 'what a reader of another process sees')
            if turn % 13 == 12:
                same(seldom.sees(), (turn + 1, turn * (turn + 1) // 2), 'what one that seldom reads sees')
        node.sound(seen_by(one))


def long_log():
    """More frames than the first region of the index has, and a reader that comes late."""
    with Node() as node, Reader(node.socket) as reader:
        made = in_mode(node.socket, 'wal', 512)
        made.execute('pragma wal_autocheckpoint=0')
        made.execute(*insert(0))
        same(reader.sees(), (1, 0), 'what a reader sees first')
        for turn, rows in enumerate((3000, 1300, 200, 100), 1):
            made.execute('begin')
            made.executemany('insert into t values(?, ?, zeroblob(450))', [(10000 * turn + it, turn) for it in range(rows)])
            made.execute('commit')
            made.execute('update t set b=b+1 where a % 50 = 0')
            same(reader.sees(), wanted(made), 'what a reader of another process sees')
        with Reader(node.socket) as late:
            same(late.sees(), wanted(made), 'what a late one sees')
        node.sound(seen_by(made))


def replica_sees_each_position(mode):
    """Connections that stay open at a replica see each transaction once it is there."""
    with Node() as node, Node(following=node) as replica:
        made = in_mode(node.socket, mode)
        made.execute('begin')
        made.executemany('insert into t values(?, 0, zeroblob(500))', [(it,) for it in range(100)])
        made.execute('commit')
        node.level(replica)
        there = [connect(replica.socket) for _ in range(3)]
        for number in range(1, 40):
            made.execute('update t set b=? where a % 7 = 0 or a < 5', (number,))
            until(lambda: replica.position() == node.position(), 'the position arrives')
            for turn, one in enumerate(there):
                if number % (turn + 1) == 0:
                    seen = one.execute('select min(b), max(b) from t where a % 7 = 0').fetchone()
                    same(seen, (number, number), 'what a reader sees')
        same(seen_by(there[0]) == seen_by(made), True, 'both see the same bytes')


def the_last_one_leaves():
    """It checkpoints and removes log and shared memory; who comes then finds all."""
    with Node() as node:
        made = in_mode(node.socket, 'wal')
        fill(made, range(5))
        made.close()
        for turn in range(5, 8):
            status, said, errors = Client(node.socket, COMER.format(turn)).ended()
            same((status, said), (0, str(turn + 1)), f'rows that the next process sees ({errors})')
        node.sound(seen_by(connect(node.socket)))


run({'dies_before': dies_before, 'dies_after': dies_after, 'each_commit_is_seen': each_commit_is_seen, 'long_log': long_log,
     'the_last_one_leaves': the_last_one_leaves,
     **in_each_mode(('delete', 'wal'), replica_sees_each_position=replica_sees_each_position)})
