#!/usr/bin/python3
"""Rows written by real SQLite on one node, in each journal mode: each transaction that SQLite commits is one of the log,
a rollback is none, and what SQLite sees, the database file and the log applied are the same bytes.

At most: 1200 seconds.
Seen to fail: a node whose writes of the file `database` change one bit ("the log applied is the database file"), and one that doesn't rename
every ninth file into its log ("apply of the log ends well")."""
import os
import random

from support import Node, commits, in_each_mode, in_mode, insert, run, seen_by

ROWS = 400


def rows(mode, page_size):
    with Node() as node:
        made = in_mode(node.socket, mode, page_size)
        for key in range(20):
            commits(node, made, 1, insert(key))
        commits(node, made, 1, 'begin', *[insert(key) for key in range(100, 300)], 'commit')
        commits(node, made, 0, 'begin', *[insert(key) for key in range(300, 400)], 'rollback')
        commits(node, made, 1, 'begin', 'savepoint s', 'delete from t', 'rollback to s', 'update t set b=1 where a<10', 'commit')
        commits(node, made, 0, 'select count(*) from t')
        commits(node, made, 1, 'delete from t where a<150')
        node.sound(seen_by(made))


def small_pages(mode):
    rows(mode, 512)


def usual_pages(mode):
    rows(mode, 4096)


def large_pages(mode):
    rows(mode, 65536)


def spill(mode):
    """A cache of ten pages, so that pages of a transaction are written before its end."""
    with Node() as node:
        made = in_mode(node.socket, mode, 1024)
        made.execute('pragma cache_size=10')
        chosen = random.Random(5)
        update = lambda: ('update t set c=? where a=?', (os.urandom(600), chosen.randrange(ROWS)))
        commits(node, made, 1, 'begin', *[insert(key, 500) for key in range(ROWS)], 'commit')
        commits(node, made, 0, 'begin', *[update() for _ in range(ROWS // 2)], 'rollback')
        commits(node, made, 1, 'begin', *[update() for _ in range(ROWS // 2)], 'commit')
        node.sound(seen_by(made))


run({**in_each_mode(small_pages=small_pages, usual_pages=usual_pages, spill=spill),
     **in_each_mode(('delete', 'wal'), large_pages=large_pages)})
