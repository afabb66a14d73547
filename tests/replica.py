#!/usr/bin/python3
"""A primary and replicas under real SQLite: a replica comes to stand where the primary does with the same pages, takes no
write, shows a reader one position, and comes back from kills of either or both, from far behind, from a log that was pruned, and
from a primary that went back to an older copy of its directory.

At most: 1200 seconds.
Seen to fail: nodes whose writes of the file `database` change one bit: SQLite takes the replica's schema for malformed."""
import os
import shutil
import sqlite3
import time

from support import (Client, Node, connect, count, fill, holds, in_each_mode, in_mode, insert, length, level_pair, refuses, run,
                     same, seen_by, until)

ENDLESS = '''
import itertools
c.execute('pragma busy_timeout=500')
for i in itertools.count(): c.execute('insert into t(b,c) values(?,?)', (i, os.urandom(700)))
'''
TURNS = length(3, 6)


def follow(mode):
    with Node() as primary:
        made = in_mode(primary.socket, mode)
        fill(made, range(40))
        with Node(following=primary) as replica, Node(following=primary) as other:
            primary.level(replica)
            fill(made, range(1000, 1040))
            primary.level(replica)
            primary.level(other)
            at = connect(replica.socket)
            same(count(at), 80, 'rows at the replica')
            refuses(lambda: at.execute(*insert(9999)), sqlite3.Error, 'a write at a replica')
            at.close()
            seen = seen_by(made)
            made.close()
            primary.level(replica)
            replica.sound(seen)
        primary.sound(seen)


def steady(mode):
    """A reader inside holds later files back, and sees them once it is out."""
    with Node() as primary:
        made = in_mode(primary.socket, mode)
        fill(made, range(20))
        with Node(following=primary) as replica, Node(following=primary) as free:
            primary.level(replica)
            at = connect(replica.socket)
            at.execute('begin')
            seen, where = at.execute('select count(*), sum(a) from t').fetchone(), replica.position()
            fill(made, range(1000, 1020))
            primary.level(free)
            time.sleep(0.5)
            same(at.execute('select count(*), sum(a) from t').fetchone(), seen, 'what the reader sees')
            same(replica.position(), where, 'the position while it reads')
            at.execute('commit')
            primary.level(replica)
            same(count(at), 40, 'rows once it is out')
            at.close()


def killed(mode):
    """The replica, the primary or both are killed under load in turns."""
    with Node() as primary:
        in_mode(primary.socket, mode).close()
        with Node(following=primary) as replica:
            for turn in range(TURNS):
                under_load(primary, [(replica,), (primary,), (primary, replica)][turn % 3])
                primary.level(replica)
            made = connect(primary.socket)
            seen = seen_by(made)
            made.close()
            replica.sound(seen)
        primary.sound(seen)


def under_load(primary, nodes):
    """Kills the nodes while a writer is at work, which goes on for a while where the primary lives, and starts them."""
    writer = Client(primary.socket, ENDLESS)
    working(primary)
    for one in nodes:
        one.kill()
    if primary not in nodes:
        working(primary)
        writer.kill()
    writer.ended()
    for one in nodes:
        one.start()


def working(primary):
    before = primary.position().txid
    until(lambda: primary.position().txid > before + 15, 'the writer is at work')


def older_primary(mode):
    """The replica's position is unknown to a primary that went back: one snapshot brings it over."""
    with Node() as primary:
        made = in_mode(primary.socket, mode)
        fill(made, range(10))
        made.close()
        with Node(following=primary) as replica:
            primary.level(replica)
            primary.kill()
            older = os.path.join(primary.folder, 'older')
            shutil.copytree(primary.data, older)
            primary.start()
            made = connect(primary.socket)
            fill(made, range(1000, 1010))
            made.close()
            primary.level(replica)
            ahead = replica.position().txid
            primary.kill()
            shutil.rmtree(primary.data)
            os.rename(older, primary.data)
            primary.start()
            made = connect(primary.socket)
            fill(made, range(5000, 5003))
            holds(primary.position().txid < ahead, 'the primary is behind')
            primary.level(replica)
            replica.sound(seen_by(made))


def transactions(path):
    """The first and the last transaction of a file of a log, by its name."""
    return tuple(int(it, 16) for it in os.path.basename(path).removesuffix('.ltx').split('-'))


def far_behind(mode):
    """A replica that was away gets many transactions as one file, but for the last 64, each alone, and starts with that in its log."""
    with level_pair(mode) as (primary, replica, made):
        replica.kill()
        behind = transactions(replica.log()[-1])[1]
        fill(made, range(1000, 1150))
        replica.start()
        primary.level(replica)
        files = [it for it in map(transactions, replica.log()) if it[0] > behind]
        last = primary.position().txid
        same(files[-64:], [(it, it) for it in range(last - 63, last + 1)], 'the last 64 transactions')
        holds(len(files) < 70, f'few files for those before: {files[:-64]}')
        same((files[0][0], files[-65][1]), (behind + 1, last - 64), 'the transactions before')
        same(count(connect(replica.socket)), 160, 'rows at the replica')
        fill(made, range(2000, 2010))
        primary.level(replica)
        seen = seen_by(made)
        made.close()
        primary.level(replica)
        replica.sound(seen)
        primary.sound(seen)


def late(mode):
    """A replica that comes when the log was pruned gets one snapshot."""
    with Node(keep=10) as primary:
        made = in_mode(primary.socket, mode)
        fill(made, range(50))
        with Node(following=primary) as replica:
            primary.level(replica)
            fill(made, range(1000, 1005))
            primary.level(replica)
            until(lambda: len(primary.log()) <= 10, 'no more files are kept than were asked for')
            replica.keep = 10
            replica.sound(seen_by(made))


run(in_each_mode(('delete', 'wal'), follow=follow, steady=steady, killed=killed, older_primary=older_primary, far_behind=far_behind,
                 late=late))
