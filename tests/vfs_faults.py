#!/usr/bin/python3
"""A node that ends under connections of real SQLite: they are told of an I/O error, never of a damaged database, at once and not
after a busy timeout; and once it is started again, new connections of the same process find all that was acknowledged.

At most: 1200 seconds.
Seen to fail: with a library that answers a failed read by SQLite's code for a damaged file (`database disk image is malformed`)."""
import sqlite3
import threading
import time

from support import Node, connect, count, fill, holds, in_each_mode, in_mode, insert, length, run, same, seen_by, until

# 'database is locked' is said by a connection to the node that is there
TOLD = {'disk I/O error', 'unable to open database file'}
TURNS = length(2, 6)


def told(call):
    """What the call is told, or None where it goes through."""
    try:
        call()
    except sqlite3.Error as fault:
        return str(fault)


class Crowd:
    """Threads that read and write, each until its first fault."""

    def __init__(self, socket, first):
        self.rows, self.faults, self.at_work, self.lock = 0, [], [], threading.Lock()
        self.threads = [threading.Thread(target=self.work, args=(socket, act, first + 100000 * turn))
                        for turn, act in enumerate((self.write, self.read, self.read, self.read_long))]
        for it in self.threads:
            it.start()

    def work(self, socket, act, first):
        mine = connect(socket)
        mine.execute('pragma cache_size=2')
        self.at_work.append(act)
        fault = None
        while fault is None:
            fault = told(lambda: act(mine, first))
            first += 1
            if fault == 'database is locked':
                fault = None
        self.faults.append(fault)
        mine.close()

    def write(self, mine, key):
        mine.execute(*insert(key))
        with self.lock:
            self.rows += 1

    def read(self, mine, _):
        mine.execute('select sum(length(c)) from t').fetchall()

    def read_long(self, mine, _):
        for _ in mine.execute('select c from t order by a desc'):
            time.sleep(.001)


def node_killed_under_load(mode):
    with Node() as node:
        made = in_mode(node.socket, mode)
        fill(made, range(20))
        made.close()
        rows = 20
        for turn in range(TURNS):
            crowd = Crowd(node.socket, 1000000 * (turn + 1))
            until(lambda: len(crowd.at_work) == len(crowd.threads), 'all threads are at work')
            time.sleep(.3 + .1 * turn)
            node.kill()
            for it in crowd.threads:
                it.join(60)
            same([it.is_alive() for it in crowd.threads], [False] * 4, 'threads that still wait')
            holds(set(crowd.faults) <= TOLD, f'what they were told: {crowd.faults}')
            node.start()
            again = connect(node.socket)
            found = count(again)
            acknowledged = rows + crowd.rows
            holds(acknowledged <= found <= acknowledged + 1, f'{found} rows where {acknowledged} were acknowledged')
            rows = found
            seen = seen_by(again)
            again.close()
        node.sound(seen)


def idle_connection(mode):
    """Each call on it is told the same, at once, also once another node is there; a new one beside it works."""
    with Node() as node:
        old = in_mode(node.socket, mode)
        old.execute('pragma busy_timeout=3600000')
        fill(old, range(3))
        node.kill()
        for words in ('select * from t', 'insert into t values(9, 9, 9)', 'begin immediate'):
            same(told(lambda: old.execute(words).fetchall()), 'disk I/O error', f'what {words} is told')
        node.start()
        same(told(lambda: count(old)), 'disk I/O error', 'what the old connection is told once a node is there')
        new = connect(node.socket)
        same(count(new), 3, 'rows of a new one')
        new.execute(*insert(9))
        old.close()
        same(count(new), 4, 'rows once the old one is closed')
        node.sound(seen_by(new))


def inside_a_transaction(mode):
    with Node() as node:
        made = in_mode(node.socket, mode)
        fill(made, range(3))
        made.execute('begin immediate')
        made.execute(*insert(100))
        before = node.position()
        node.restart()
        same(told(lambda: made.execute('commit')), 'disk I/O error', 'what the commit is told')
        made.close()
        again = connect(node.socket)
        same((count(again), node.position()), (3, before), 'rows and position: nothing of it is there')
        node.sound(seen_by(again))


run(in_each_mode(node_killed_under_load=node_killed_under_load, idle_connection=idle_connection,
                 inside_a_transaction=inside_a_transaction))
