#!/usr/bin/python3
"""A node's database taken out and put in by curl: of each page size and mode, with free pages and grown over them, the bytes come back as
they went in, and SQLite and a replica find them sound. What is no database, comes to the wrong node or name, or is held back by a
client changes nothing. A node that is killed while it imports stands before or behind it. Followers that leave an idle node keep none
of its jobs. By hand, with LITEFS_LONG, bytes at the lock page.

At most: 900 seconds.
Seen to fail: a node that answers 404 to both calls; one that prunes at commits alone (`pruned`); one whose pages side by
side are written at the front (`large`); one that never looks for its followers (`left`: timed out)."""
import contextlib
import os
import random
import socket
import sqlite3
import threading

from support import MODES, Node, connect, count, curl, fill, holds, in_mode, insert, length, run, same, until
from support.curl import contents
from support.preloaded import scratch

SIZES = (512, 1024, 4096, 65536)
LONGEST = 2147483648
KILLS, STREAMS = length(6, 30), 300


def exported(node, name='app'):
    return curl(f'http://127.0.0.1:{node.port}/export?name={name}')


def imported(node, data, name='app'):
    with scratch() as folder:
        path = os.path.join(folder, 'database')
        with open(path, 'wb') as file:
            file.write(data)
        return curl('-H', 'Expect:', '--data-binary', f'@{path}', f'http://127.0.0.1:{node.port}/import?name={name}')


def line(node):
    """The node's position, as an import answers it."""
    at = node.position()
    return f'{at.txid:016x}/{at.sum}\n'.encode()


def made(page_size, mode, rows, removed=0):
    """The bytes of a database that SQLite makes in a file: so many rows, and so many of them removed again."""
    with scratch() as folder:
        path = os.path.join(folder, 'database')
        with contextlib.closing(sqlite3.connect(path, isolation_level=None)) as at:
            at.execute(f'pragma page_size={page_size}')
            at.execute(f'pragma journal_mode={mode}')
            at.execute('create table t(a integer primary key,b,c)')
            at.execute('begin')
            fill(at, range(rows))
            at.execute('commit')
            at.execute('delete from t where a<?', (removed,))
            if mode == 'wal':
                at.execute('pragma wal_checkpoint(truncate)')
        return contents(path)


@contextlib.contextmanager
def opened(data):
    """A connection of SQLite to these bytes, which it finds sound."""
    with scratch() as folder:
        path = os.path.join(folder, 'database')
        with open(path, 'wb') as file:
            file.write(data)
        with contextlib.closing(sqlite3.connect(path)) as at:
            same(at.execute('pragma integrity_check').fetchall(), [('ok',)], 'integrity')
            yield at


def sound(data, rows):
    """SQLite finds the bytes sound, with so many rows."""
    with opened(data) as at:
        same(count(at), rows, 'rows')


def sizes(page_size, mode):
    """Into an empty node, with a replica; then one of other pages in its place, and one with free pages."""
    other = SIZES[(SIZES.index(page_size) + 1) % len(SIZES)]
    with Node() as node, Node(following=node) as replica:
        same(exported(node), (404, b'Absent\n'), 'the export of nothing')
        for turn, (data, rows) in enumerate(((made(page_size, mode, 40), 40), (made(other, 'delete', 5), 5), (made(page_size, mode, 90, 60), 30))):
            status, body = imported(node, data)
            same((status, body), (200, line(node)), 'the import')
            same(node.position().txid, turn + 1, 'an import is one transaction')
            same(exported(node) == (200, data), True, 'the export is what was imported')
            node.level(replica)
            same(exported(replica) == (200, data), True, 'so is the replica\'s')
            sound(data, rows)
            with contextlib.closing(connect(node.socket)) as at:
                same(count(at), rows, 'rows that a client reads')
        with contextlib.closing(connect(node.socket)) as at:
            at.execute(*insert(5000))
        sound(exported(node)[1], 31)
        node.level(replica)
        node.sound()


def large(page_size):
    """A database of more than 2 MiB, whose file is staged in parts, and then one that differs from it in runs of pages: each comes back, at a replica
    too, and the log applied is the database."""
    first = made(page_size, 'delete', 8000)
    size = len(first)
    second = bytearray(made(page_size, 'delete', 8000))
    for at in range(page_size * 3, size - 50 * page_size, 50 * page_size):
        second[at:at + 20 * page_size] = first[at:at + 20 * page_size]
    holds(size > 2 << 20 and bytes(second) != first, f'a large database: {size} bytes')
    with Node() as node, Node(following=node) as replica:
        for data in first, bytes(second):
            same(imported(node, data), (200, line(node)), 'the import')
            same(exported(node) == (200, data), True, 'the export is what was imported')
            node.level(replica)
        same(node.position().txid, 2, 'transactions')
        node.sound()
        replica.sound()


def again():
    """The same bytes once more are no transaction."""
    data = made(4096, 'delete', 50)
    with Node() as node:
        same(imported(node, data)[0], 200, 'the first import')
        before, files = line(node), node.log()
        same(imported(node, data), (200, before), 'the second one answers the position')
        same((line(node), node.log()), (before, files), 'position and log behind it')


def pruned():
    """A primary that nobody writes to but by imports keeps no more files than it is to."""
    with Node(keep=2) as node:
        for rows in range(10, 60, 10):
            data = made(4096, 'delete', rows)
            same(imported(node, data)[0], 200, f'the import of {rows} rows')
        until(lambda: len(node.log()) <= 2, 'its log is short')
        same(exported(node) == (200, data), True, 'the export')
        before = node.position()
        node.restart()
        same((node.position(), before.txid), (before, 5), 'the position behind a restart')


def lock_page():
    """Bytes at the lock page of a database past 1 GiB are of no account: they come back as zeros, and the same once more is no transaction."""
    size, at = 65536, 1 << 30
    with scratch() as folder, Node() as node:
        path = os.path.join(folder, 'database')
        past_a_gibibyte(path, size)
        with open(path, 'r+b') as file:
            file.seek(at)
            file.write(b'\xee' * size)
        for _ in range(2):
            same(curl('-H', 'Expect:', '-X', 'POST', '-T', path, f'http://127.0.0.1:{node.port}/import?name=app'), (200, line(node)), 'the import')
            same(node.position().txid, 1, 'the position')
        wanted = contents(path)
        wanted = wanted[:at] + bytes(size) + wanted[at + size:]
        same(exported(node) == (200, wanted), True, 'the export')
        with contextlib.closing(connect(node.socket)) as client:
            same(client.execute('pragma integrity_check').fetchall(), [('ok',)], 'integrity')


def past_a_gibibyte(path, page_size):
    """A database of 1,080 rows of a million bytes each."""
    with contextlib.closing(sqlite3.connect(path, isolation_level=None)) as at:
        at.execute(f'pragma page_size={page_size}')
        at.execute('pragma journal_mode=off')
        at.execute('create table t(a integer primary key,b,c)')
        at.execute('begin')
        for key in range(1080):
            at.execute('insert into t values(?,randomblob(1000000),0)', (key,))
        at.execute('commit')


def held(mode):
    """A client inside holds an import back, which changes nothing; once it is out the import comes in."""
    data = made(1024, 'delete', 9)
    with Node() as node:
        at = in_mode(node.socket, mode)
        fill(at, range(20))
        at.execute('begin')
        same(count(at), 20, 'rows that the reader sees')
        before = line(node)
        same(imported(node, data), (409, b'Held\n'), 'an import under a reader')
        same((line(node), count(at)), (before, 20), 'position and rows behind it')
        at.execute('commit')
        at.close()
        same(imported(node, data), (200, line(node)), 'an import once it is out')
        same(exported(node) == (200, data), True, 'the export')
        node.sound()


def refused():
    data = made(4096, 'delete', 3)
    with Node() as node:
        for text in (b'', b'no database', data[:600], data[:-1], data + bytes(100)):
            same(imported(node, text), (400, b'NotDatabase\n'), f'an import of {len(text)} bytes')
            same(exported(node), (404, b'Absent\n'), 'the export behind it')
        same(imported(node, data, 'apq'), (404, b''), 'another name')
        same(exported(node, 'apq'), (404, b''), 'another name')
        same(exported(node, '.a'), (404, b''), 'a name that is none')
        same(curl('-X', 'POST', f'http://127.0.0.1:{node.port}/export?name=app'), (404, b''), 'another method')
        same(answered(node, LONGEST + 1), b'413 Payload Too Large', 'a body that is too long')
        same(node.position().txid, 0, 'the position')
        same(imported(node, data)[0], 200, 'an import behind these')
        with Node(following=node) as replica:
            node.level(replica)
            same(imported(replica, data), (503, b'NotPrimary\n'), 'an import at a replica')
            same(exported(replica) == (200, data), True, 'the replica\'s export')


def answered(node, size):
    """The status of the reply to an import of so many bytes, none of which is sent."""
    with socket.create_connection(('127.0.0.1', node.port), timeout=60) as link:
        link.sendall(f'POST /import?name=app HTTP/1.1\r\nContent-Length: {size}\r\n\r\n'.encode())
        return link.makefile('rb').readline().strip().split(b' ', 1)[1]


def busy(mode):
    """Imports of two databases by turns, while clients read and write: each is refused as a whole, or comes in whole. No export is of two."""
    one, two = made(4096, 'delete', 30), made(4096, 'delete', 60)
    with Node() as node:
        in_mode(node.socket, mode).close()
        ends, going = set(), threading.Event()
        writing = threading.Thread(target=write, args=(node, going))
        writing.start()
        try:
            for turn in range(length(30, 200)):
                status, body = imported(node, (one, two)[turn % 2])
                same(status == 200 or (status, body) == (409, b'Held\n'), True, f'an import is done or held back: {status} {body}')
                ends.add(status)
                status, data = exported(node)
                same(status, 200, 'the export')
                with opened(data):
                    pass
        finally:
            going.set()
            writing.join()
        same(200 in ends, True, 'one came in')
        node.sound()


def write(node, going):
    """Opens the database, writes a row and closes it, again and again. What SQLite refuses then is passed over."""
    while not going.wait(0.01):
        with contextlib.suppress(sqlite3.Error), contextlib.closing(connect(node.socket, 1)) as at:
            at.execute('insert into t(b,c) values(1,?)', (os.urandom(300),))


def killed():
    """A node that is killed while it imports has the database from before, or the new one, and its log says the same."""
    one, two = made(4096, 'delete', 1000), made(1024, 'delete', 1500)
    with Node() as node:
        same(imported(node, one)[0], 200, 'the first import')
        for turn in range(KILLS):
            before, wanted = exported(node)[1], (two, one)[turn % 2]
            importing = threading.Thread(target=lambda: ended(node, wanted))
            importing.start()
            importing.join(random.uniform(0, 0.15))
            node.kill()
            importing.join()
            node.start()
            same(exported(node)[1] in (before, wanted), True, 'the database behind the kill is one of the two')
            node.sound()
            imported(node, wanted)


def ended(node, data):
    """Imports, and passes over that the node is gone."""
    with contextlib.suppress(Exception):
        imported(node, data)


def left():
    """Followers that come, are level, and go, more than the node has jobs: it answers others, and closes its ends of their links."""
    with Node() as node:
        with contextlib.closing(in_mode(node.socket, 'delete')) as at:
            fill(at, range(3))
        data = exported(node)[1]
        for _ in range(STREAMS):
            leave(node)
        same(exported(node) == (200, data), True, 'the export')
        until(lambda: not half_closed(node.port), 'no socket of the node stays half closed')
        sound(data, 3)


def leave(node):
    """Asks for the stream from where the node stands, reads that it is level, and goes."""
    at = line(node)
    with socket.create_connection(('127.0.0.1', node.port), timeout=120) as link:
        body = b'app ' + at
        link.sendall(f'POST /stream HTTP/1.1\r\nContent-Length: {len(body)}\r\n\r\n'.encode() + body)
        same(link.recv(12), b'HTTP/1.1 200', 'the stream begins')


def half_closed(port):
    """How many sockets of the port are closed by their peers alone (CLOSE_WAIT)."""
    with open('/proc/net/tcp') as file:
        rows = [it.split() for it in file.readlines()[1:]]
    return sum(int(it[1].split(':')[1], 16) == port and it[3] == '08' for it in rows)


all_sizes = {f'sizes-{size}-{mode}': lambda size=size, mode=mode: sizes(size, mode) for size in SIZES for mode in ('delete', 'wal')}
all_large = {f'large-{size}': lambda size=size: large(size) for size in (512, 4096, 65536)}
by_mode = {f'{name}-{mode}': lambda call=call, mode=mode: call(mode) for name, call in (('held', held), ('busy', busy)) for mode in MODES}
# it takes 8 GB of memory
by_hand = {'lock_page': lock_page} if length(0, 1) else {}
run({**all_sizes, **all_large, **by_mode, **by_hand, 'again': again, 'pruned': pruned, 'refused': refused, 'killed': killed, 'left': left}, at_once=2)
