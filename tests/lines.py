#!/usr/bin/python3
"""What a node tells on standard error: whole lines that begin with `litefs: `, of its start, of each change of its role, of its stream and
its followers, and of a store that broke, in front of the line of its status. A standard error that is closed stops nothing.

At most: 300 seconds.
Seen to fail: a node whose standard error goes nowhere: all but closed_errors; a stand-in that ends where it can't write a line:
closed_errors; a node whose store broke and that ends while its lease is being given back: gives_lease_back."""
import contextlib
import json
import os
import socketserver
import sqlite3
import subprocess
import time
from re import escape, fullmatch, search

from support import (ROOT, Cluster, Link, Node, Wrong, configuration, connect, fill, holds, in_mode, insert, level_pair, read, run, same,
                     small_disk, until)
from support.cluster import standing_still
from support.listening import Listening
from support.node import SERVICE
from support.wire import ROOT_NODE, UNLINK

NOWHERE = '0000000000000000/0000000000000000'
PEER = r'127\.0\.0\.1:[0-9]+'


def said(node, line):
    """Those of its lines that fit."""
    return [it for it in node.news() if fullmatch(line, it)]


def start():
    """The version, the database, the role, the position, the addresses."""
    version = read(f'{ROOT}/VERSION').decode().strip()
    with Node() as primary, Node(following=primary) as replica:
        fill(in_mode(primary.socket, 'wal'), range(3))
        primary.level(replica)
        at = position(primary)
        primary.restart()
        replica.restart()
        for node, role in (primary, 'primary'), (replica, 'replica of db1'):
            until(lambda: len(starts(node)) == 2, 'a line of each start')
            behind = f'files on app.sock, http on 127.0.0.1:{node.port}'
            same(starts(node), [f'start {version}: database app, role {role} at {it}, {behind}' for it in (NOWHERE, at)], 'its lines')


def starts(node):
    return [it for it in node.lines() if it.startswith('start ')]


def position(node):
    """As lines have it."""
    at = node.position()
    return f'{at.txid:016x}/{at.sum}'


def one_line():
    """A name with a newline in it doesn't make two lines."""
    with Node() as primary, Node(following=primary, starts=False) as node:
        node.configure(configuration(node.port, primary.port).replace('"db1"', '"db\\n1\\u001b["'))
        node.start()
        until(node.lines, 'a line')
        holds(', role replica of db 1 [ at ' in node.lines()[0], f'the name in one line: {node.lines()}')


def roles():
    """Each change of role, with its position, at each of three nodes."""
    with Cluster('wal') as cluster:
        first, second, third = cluster.nodes
        cluster.level(first)
        before = position(first)
        until(lambda: told_last(first, 'primary'), 'the first is primary')
        for it in second, third:
            until(lambda: told_last(it, f'replica of db{first.port}'), 'the others name it')
        first.kill()
        cluster.follows(first)
        until(lambda: told_last(second, 'primary'), 'the second is primary')
        holds(before <= told_at(second) <= position(second), f'at one of its positions since then: {told(second)[-1]}')
        until(lambda: told_last(third, f'replica of db{second.port}'), 'the third names it')
        first.start()
        until(lambda: told_last(first, f'replica of db{second.port}'), 'the old one names it')
        with cluster.cut_off(second), standing_still(second):
            cluster.follows(second)
        until(lambda: 'role replica' in told(second)[-1], 'the one that stood still is none any longer')
        cluster.ends(set())


def told(node):
    """Each role that it told, with the position."""
    return [it for it in node.lines() if 'role ' in it]


def told_last(node, role):
    """Whether this is the role that it told last."""
    lines = told(node)
    return lines and fullmatch(rf'(start .*, )?role {escape(role)} at [0-9a-f]{{16}}/[0-9a-f]{{16}}(, files .*)?', lines[-1])


def told_at(node):
    """The position with which it told its role last."""
    return search(r' at (\S+?),? ', told(node)[-1] + ' ')[1]


def streams():
    """How a replica's stream begins and ends, and why there is none; the same once a minute at most."""
    with Node() as primary, Node(following=primary) as replica:
        at = f'127.0.0.1:{primary.port}'
        until(lambda: f'stream from {at} begins' in replica.news(), 'it begins')
        primary.kill()
        until(lambda: replica.news()[-1] == f'primary not reached at {at}', 'the primary is gone')
        holds(replica.news()[-2].startswith('stream ends: '), f'its end: {replica.news()}')
        before = replica.news()
        time.sleep(2)
        same(replica.news(), before, 'lines while it is gone')
        primary.start()
        fill(in_mode(primary.socket, 'wal'), range(3))
        primary.level(replica)


def no_stream():
    """Another database, a replica, itself, and what is no node."""
    with Node(database='other') as other, Node(following=other) as replica, Listening(Hello) as silly:
        for it, why in ((other, 'status 404, another database, or no node'), (replica, 'status 503, not the primary'),
                        (silly, 'no stream of this database'), (None, 'status 503, not the primary')):
            with Node(following=it or other, starts=False) as node:
                if it is None:
                    node.configure(configuration(node.port, node.port).replace('candidate = true', 'candidate = false'))
                node.start()
                until(lambda: f'stream ends: {why}' in node.news(), f'it says why: {why}')
                same(node.news().count(f'stream ends: {why}'), 1, f'how often it says {why}')


class Hello(socketserver.StreamRequestHandler):
    """Answers a link with something that is no reply."""

    def handle(self):
        self.rfile.readline()
        self.wfile.write(b'SSH-2.0-OpenSSH_9.6\r\n' * 100)


def snapshots():
    """A replica that has transactions of its own takes a snapshot: from where and to where, at both nodes."""
    with Node() as primary, Node(following=primary) as replica:
        fill(in_mode(primary.socket, 'wal'), range(3))
        primary.level(replica)
        replica.kill()
        replica.lead()
        replica.start()
        fill(connect(replica.socket), range(3, 6))
        own = position(replica)
        replica.kill()
        replica.follow(primary)
        replica.start()
        primary.level(replica)
        at = position(primary)
        for node, what in (replica, 'snapshot installed'), (primary, rf'snapshot for the follower {PEER}'):
            line = f'{what}: at {at} in place of {own}'
            until(lambda: said(node, line), line)


def drop():
    """A replica drops the database, as its primary does."""
    with Node() as primary, Node(following=primary) as replica:
        with contextlib.closing(in_mode(primary.socket, 'delete')) as made:
            fill(made, range(3))
        primary.level(replica)
        at = position(primary)
        with Link(primary.socket) as link:
            link.ask(UNLINK, ROOT_NODE, b'app\0')
        until(lambda: f'database dropped: it was at {at}' in replica.news(), 'the drop')
        same(position(replica), NOWHERE, 'where the replica stands then')


def waits():
    """A frame that a reader at a replica holds back: once, and by the lock that it holds."""
    for mode, lock in ('delete', 'SHARED'), ('wal', 'READ[0-4]'):
        with level_pair(mode, 3) as (primary, replica, writer):
            reader = connect(replica.socket)
            reader.execute('begin')
            reader.execute('select count(*) from t').fetchall()
            fill(writer, range(3, 4))
            until(lambda: waiting(replica), f'{mode}: it says that a frame waits')
            holds(fullmatch(f'frame waits: a client holds {lock}', waiting(replica)[0]), f'{mode}: {waiting(replica)}')
            time.sleep(2)
            reader.execute('commit')
            primary.level(replica)
            same(len(waiting(replica)), 1, f'{mode}: how often it says so')


def waiting(node):
    return [it for it in node.news() if it.startswith('frame waits: ')]


def followers():
    """A primary's follower that comes, comes again from another position, and is gone."""
    with level_pair('wal', 3) as (primary, replica, _):
        at = position(primary)
        until(lambda: said(primary, f'follower {PEER} at {NOWHERE}'), 'it comes')
        replica.restart()
        until(lambda: said(primary, f'follower {PEER} at {at}'), 'it comes again, from there')
        replica.kill()
        until(lambda: said(primary, f'follower {PEER} at {at} is gone'), 'it is gone, with no commit since')


def still():
    """A node that stood still for longer than a lease."""
    with Node(starts=False) as node:
        node.configure(configuration(node.port) + 'ttl = 1000\n')
        node.start()
        with standing_still(node):
            time.sleep(2.5)
        until(lambda: [it for it in node.news() if fullmatch('stood still for [0-9]+ ms', it)], 'it says so')


def gives_lease_back():
    """A primary whose store broke gives its lease back before it ends."""
    with small_disk('size=1m') as disk, Granting() as service, Node(folder=disk.folder, service=service, bootstrap=True) as node:
        until(lambda: told_last(node, 'primary'), 'it is primary')
        made = until(lambda: taking(node), 'it takes writes')
        service.waits = 1
        with contextlib.suppress(sqlite3.Error):
            for key in range(5000):
                made.execute(*insert(key, 5000))
        same(node.ended(), 5, 'its status')
        until(lambda: service.asked[-1] == 'release', 'what the service was asked last, by a node that waited for its reply')
        same([it.split(':')[0] for it in node.lines()[-2:]], ['store broken', 'disk failed'], 'the last lines')


def taking(node):
    try:
        return in_mode(node.socket, 'wal')
    except (sqlite3.Error, Wrong):
        return None


class Granting(Listening):
    """A lease service that grants what it is asked for, for ten minutes. `asked`: what it was asked for by those that took the reply, which
    comes after so many seconds (`waits`)."""
    ttl, waits = 600000, 0

    def __init__(self):
        self.asked = []
        super().__init__(Grants)
        self.told = SERVICE.format(port=self.port)


class Grants(socketserver.StreamRequestHandler):
    def handle(self):
        head = list(iter(lambda: self.rfile.readline().strip().lower(), b''))
        length = next((int(it.split(b':')[1]) for it in head if it.startswith(b'content-length:')), 0)
        asked = json.loads(self.rfile.read(length))
        time.sleep(self.server.waits)
        granted = {'host': 'db1', 'term': 1, 'ttl': self.server.ttl, 'url': asked.get('url', '')}
        text = json.dumps({'acquire': granted, 'renew': {'ttl': self.server.ttl}}.get(asked['op'], {}), separators=(',', ':')).encode()
        with contextlib.suppress(ConnectionError):
            self.wfile.write(b'HTTP/1.1 200 OK\r\nContent-Length: %d\r\nConnection: close\r\n\r\n%s' % (len(text), text))
            self.connection.recv(1)
            self.server.asked.append(asked['op'])


def closed_errors():
    """Standard error closed, and a pipe that nobody reads any more."""
    for options in '2>&-', '2> >(exec true)':
        with Node(starts=False) as node:
            node.process = subprocess.Popen(['bash', '-c', f'exec "$0" mount {options}', node.program], cwd=node.folder,
                                            stdin=subprocess.DEVNULL, stdout=subprocess.DEVNULL)
            open(os.path.join(node.folder, 'errors'), 'w').close()
            until(node.answers, 'the node answers')
            fill(in_mode(node.socket, 'delete'), range(10))
            time.sleep(1)
            fill(connect(node.socket), range(10, 20))
            same(node.process.poll(), None, 'it goes on')


CASES = (start, one_line, roles, streams, no_stream, snapshots, drop, waits, followers, still, gives_lease_back, closed_errors)
run({call.__name__: call for call in CASES}, at_once=4)
