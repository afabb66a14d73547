#!/usr/bin/python3
"""Several connections to one node, in each journal mode: each sees what another committed, two don't write at once, and four
processes lose no row.

At most: 1200 seconds.
Seen to fail: a VFS that takes every lock for granted without asking the node, which refuses the writes:
"disk I/O error" in place of a lock that is waited for."""
import sqlite3

from support import Client, Node, commits, connect, count, in_each_mode, in_mode, insert, refuses, run, same, seen_by

PROCESSES, EACH = 4, 40


def two(mode):
    with Node() as node:
        one, other = in_mode(node.socket, mode), connect(node.socket)
        for turn in range(10):
            commits(node, one, 1, insert(turn))
            commits(node, other, 1, insert(100 + turn))
            same(count(other), 2 * turn + 2, 'rows that the other connection sees')
        node.sound(seen_by(other))


def one_writer(mode):
    with Node() as node:
        one, other = in_mode(node.socket, mode), connect(node.socket)
        one.execute('begin immediate')
        other.execute('pragma busy_timeout=50')
        refused = refuses(lambda: other.execute(*insert(1)), sqlite3.OperationalError, 'a second writer')
        same(str(refused), 'database is locked', 'what it is told')
        one.execute('rollback')
        commits(node, other, 1, insert(1))


def a_reader_keeps_its_view(mode):
    with Node() as node:
        one, other = in_mode(node.socket, mode), connect(node.socket)
        commits(node, one, 1, insert(1))
        other.execute('begin')
        same(count(other), 1, 'rows as the reader begins')
        if mode == 'wal':
            commits(node, one, 1, insert(2))
        else:
            one.execute('pragma busy_timeout=50')
            refuses(lambda: one.execute(*insert(2)), sqlite3.OperationalError, 'a commit beside a reader')
        same(count(other), 1, 'rows while it reads')
        other.execute('commit')


def processes(mode):
    with Node() as node:
        made = in_mode(node.socket, mode)
        code = "for i in range({each}): c.execute('insert into t values(?,?,?)', ({first} + i, i, os.urandom(200)))"
        writers = [Client(node.socket, code.format(each=EACH, first=1000 * it)) for it in range(1, PROCESSES + 1)]
        for writer in writers:
            same(writer.ended(), (0, '', ''), 'how a writer ended')
        same(count(made), PROCESSES * EACH, 'rows of all processes')
        node.sound(seen_by(made))


run(in_each_mode(two=two, one_writer=one_writer, a_reader_keeps_its_view=a_reader_keeps_its_view, processes=processes))
