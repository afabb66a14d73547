#!/usr/bin/python3
"""A mounted replica: connections that stay open see each position as soon as it has arrived, a reader sees one position
while it reads, a write is refused, and with `ro` SQLite itself says that the database is read-only.

At most: 900 seconds.
Seen to fail: with the header not put in behind a lock (`fresh`: an open connection sees the rows of the position before); with
`ro` that does nothing (`read_only`: `disk I/O error`)"""
import sqlite3
import time

from support import Node, holds, refuses, run, same, until
from support.mount import Mount, damaged, in_each_way, need_mount

ROUNDS = 8


def level(mount, other):
    until(lambda: text(mount) == text(other), 'the replica stands where the primary does')


def text(mount):
    with open(f'{mount.path}-pos') as file:
        return file.read()


def fresh(way):
    for mode in ('wal', 'delete'):
        with Node() as node, Node(following=node) as replica, Mount(node, way) as mount, Mount(replica, way) as other:
            made = mount.in_mode(mode)
            made.execute('begin')
            for key in range(100):
                made.execute('insert into t values(?,0,zeroblob(1500))', (key,))
            made.execute('commit')
            level(mount, other)
            readers = [other.connect() for _ in range(3)]
            for turn in range(1, ROUNDS):
                made.execute('update t set b=? where a%7=0', (turn,))
                level(mount, other)
                for k, reader in enumerate(readers):
                    if turn % (k + 1) == 0:
                        seen = reader.execute('select min(b), max(b) from t where a%7=0').fetchone()
                        same(seen, (turn, turn), f'what an open connection sees in {mode} mode')
            for one in (made, *readers):
                one.close()
            same(damaged(other.path), [], 'integrity at the replica')


def steady(way):
    for mode in ('wal', 'delete'):
        with Node() as node, Node(following=node) as replica, Mount(node, way) as mount, Mount(replica, way) as other:
            made = mount.in_mode(mode)
            made.execute('insert into t values(1,1,1)')
            level(mount, other)
            reader = other.connect()
            reader.execute('begin')
            same(reader.execute('select sum(b) from t').fetchone(), (1,), 'the row')
            at = text(other)
            for key in range(2, 6):
                made.execute('insert into t values(?,1,1)', (key,))
            time.sleep(0.5)
            same((reader.execute('select sum(b) from t').fetchone(), text(other)), ((1,), at), 'what a reader sees')
            reader.execute('commit')
            level(mount, other)
            same(reader.execute('select sum(b) from t').fetchone(), (5,), 'the rows after it')
            reader.close()
            made.close()


def read_only(way):
    for mode in ('wal', 'delete'):
        with Node() as node, Node(following=node) as replica, Mount(node, way, ['ro']) as mount, \
                Mount(replica, way, ['ro']) as other, Mount(replica, way) as plain:
            made = mount.in_mode(mode)
            made.execute('insert into t values(1,1,1)')
            level(mount, other)
            reader = other.connect()
            same(reader.execute('select count(*) from t').fetchone(), (1,), 'rows at the replica')
            said = refuses(lambda: reader.execute('insert into t values(2,1,1)'), sqlite3.Error, 'a write at a replica')
            same(str(said), 'attempt to write a readonly database', 'what is told')
            reader.close()
            writer = plain.connect(1)
            refuses(lambda: writer.execute('insert into t values(2,1,1)'), sqlite3.Error, 'a write without ro')
            writer.close()
            made.execute('insert into t values(3,1,1)')
            made.close()
            node.level(replica)
            holds(not damaged(other.path), 'integrity at the replica')


need_mount()
run(in_each_way(fresh=fresh, steady=steady, read_only=read_only))
