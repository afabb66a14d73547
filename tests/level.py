#!/usr/bin/python3
"""A replica stays level while it is read: four readers hold their locks for 20 ms back to back, beside a writer at the primary. Each
transaction comes to the replica while they read, and the replica is level once the writer has ended, while they still read. No reader's
lock is taken from it, and none waits for longer than its busy timeout.

At most: 180 seconds.
Seen to fail: a node that lets readers in while a frame waits: in DELETE mode the replica is not level before they end."""
import time

from support import Readers, Watch, connect, fill, holds, in_each_mode, in_mode, insert, level_pair, rows, run, same, until

COMMITS, EVERY = 100, 0.05


def level(mode):
    with level_pair(mode) as (primary, replica, writer):
        with Watch(replica) as watch, Readers(replica) as readers:
            for key in range(100, 100 + COMMITS):
                writer.execute(*insert(key))
                time.sleep(EVERY)
            at = primary.position().txid
            ended, before = time.monotonic(), readers.read
            until(lambda: at in watch.seen, 'the replica is level while it is read')
            until(lambda: readers.read > before + len(readers.threads), 'readers are let in again')
        same(readers.errors, [], 'what went wrong for a reader')
        holds(watch.seen[at] - ended < 5, f'level {watch.seen[at] - ended:.2f} seconds after the last commit')
        passed = len([it for it in watch.seen if it > 10])
        holds(passed > COMMITS / 2, f'the replica stood at {passed} of {COMMITS} transactions while they came')
        primary.level(replica)


def long_reader(mode):
    """One that is inside for three seconds holds the replica still. Others come in by turns meanwhile."""
    with level_pair(mode) as (primary, replica, writer):
        inside = connect(replica.socket)
        inside.execute('begin')
        seen, at = rows(inside), replica.position()
        with Readers(replica) as readers:
            fill(writer, range(10, 20))
            time.sleep(3)
            same((rows(inside), replica.position()), (seen, at), 'what it sees, and where the replica stands')
            inside.execute('commit')
            until(lambda: replica.position() == primary.position(), 'level once it is out')
        same(readers.errors, [], 'what went wrong for a reader')
        primary.level(replica)


run(in_each_mode(('delete', 'wal'), level=level, long_reader=long_reader))
