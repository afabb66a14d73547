#!/usr/bin/python3
"""Many connections of one process, and processes that fork: 2,000 connections at once, more than a lock of the node has holders
and with descriptors past 1,024; a child that leaves its parent's connections alone, and one that uses them.

At most: 1200 seconds.
Seen to fail: with a library in which each connection in WAL mode holds SHARED itself (the 1,024th is told
`database is locked`), and with one that sends a child's requests on its parent's link (the parent is told `disk I/O error`)."""
import os
import resource
import sqlite3
import threading

from support import Client, Node, Skipped, connect, count, fill, holds, in_each_mode, in_mode, insert, run, same, seen_by

MANY, SPARE = 2000, 600
# the process's own limit and the node's, which it inherits
NEEDED = MANY + SPARE


def enough_descriptors():
    soft, hard = resource.getrlimit(resource.RLIMIT_NOFILE)
    if hard != resource.RLIM_INFINITY and hard < NEEDED:
        raise Skipped(f'{NEEDED} descriptors are needed, and {hard} may be had')
    resource.setrlimit(resource.RLIMIT_NOFILE, (max(soft, NEEDED) if soft != resource.RLIM_INFINITY else soft, hard))


def many_connections():
    """In WAL mode, where each connection has locks while it is open. They are closed once their node is gone."""
    enough_descriptors()
    with Node() as node:
        made = in_mode(node.socket, 'wal')
        fill(made, range(3))
        all_of_them = []
        for _ in range(MANY):
            all_of_them.append(connect(node.socket))
            same(count(all_of_them[-1]), 3, 'rows')
        holds(len(os.listdir('/proc/self/fd')) > MANY, 'each has a descriptor')
        all_of_them[-1].execute(*insert(100))
        for one in all_of_them[::100]:
            same(count(one), 4, 'rows after a commit of the last one')
        all_of_them[0].execute(*insert(101))
        same(count(made), 5, 'rows at the end')
        node.sound(seen_by(made))
        for one in all_of_them:
            one.close()


def threads(mode):
    """Threads of one process, each with a connection of its own, beside another process."""
    with Node() as node:
        made = in_mode(node.socket, mode)
        made.execute('insert into t values(0, 0, 0)')
        faults = []

        def work(first):
            try:
                mine = connect(node.socket)
                for key in range(first, first + 15):
                    mine.execute(*insert(key))
                    total, least = mine.execute('select count(*), min(a) from t where a >= ? and a <= ?', (first, key)).fetchone()
                    if (total, least) != (key - first + 1, first):
                        faults.append(f'{total} rows up to {key}')
                mine.close()
            except sqlite3.Error as fault:
                faults.append(str(fault))
        workers = [threading.Thread(target=work, args=(1000 * it,)) for it in range(1, 5)]
        other = Client(node.socket, "for i in range(20): c.execute('insert into t values(?,?,?)', (9000 + i, i, os.urandom(200)))")
        for worker in workers:
            worker.start()
        for worker in workers:
            worker.join()
        same(other.ended(), (0, '', ''), 'how the other process ended')
        same((faults, count(made)), ([], 1 + 4 * 15 + 20), 'faults and rows')
        node.sound(seen_by(made))


FORKS = '''
c.execute('begin immediate')
c.execute("insert into t values(1,1,1)")
child = os.fork()
if child == 0:
    {child}
    os._exit({status})
_, status = os.waitpid(child, 0)
c.execute("insert into t values(2,2,2)")
c.execute('commit')
said('%d %r' % (os.waitstatus_to_exitcode(status), c.execute('select a from t order by a').fetchall()))
c.close()
'''


def forked(mode, child, wanted):
    with Node() as node:
        made = in_mode(node.socket, mode)
        ended = Client(node.socket, FORKS.format(child=child.replace('\n', '\n    '), status='n')).ended()
        same(ended[:2], (0, f'{wanted} [(1,), (2,)]'), f'status of the child and rows of the parent ({ended[2][-300:]})')
        same(count(made), 2, 'rows')
        node.sound(seen_by(made))


def fork_that_only_ends(mode):
    forked(mode, 'n = 7', 7)


def fork_with_a_connection_of_its_own(mode):
    """It sees what was committed, and not the parent's transaction."""
    forked(mode, 'd = connect(socket)\nn = d.execute("select count(*) from t").fetchone()[0]\nd.close()', 0)


def fork_that_uses_and_closes_the_parents(mode):
    """It is refused, and does nothing to the transaction of its parent."""
    forked(mode, '''n = 0
for words in ("select * from t where a > 100", "insert into t values(3,3,3)", "commit"):
    try: c.execute(words).fetchall(); n += words == "commit"
    except sqlite3.Error as fault: n += "malformed" in str(fault)
try: c.close()
except sqlite3.Error: pass''', 0)


run({'many_connections': many_connections,
     **in_each_mode(('delete', 'wal'), threads=threads, fork_that_only_ends=fork_that_only_ends,
                    fork_with_a_connection_of_its_own=fork_with_a_connection_of_its_own,
                    fork_that_uses_and_closes_the_parents=fork_that_uses_and_closes_the_parents)})
