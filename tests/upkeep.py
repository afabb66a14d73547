#!/usr/bin/python3
"""VACUUM, checkpoints, a database that shrinks, and changes of the journal mode, by real SQLite on one node.

At most: 600 seconds.
Seen to fail: a node that doesn't cut the file `database` after VACUUM ("the log applied is the database file")."""
import os

from support import Node, commits, connect, in_each_mode, in_mode, insert, run, same, seen_by

SWITCHES = ('delete', 'wal', 'truncate', 'wal', 'persist', 'delete', 'wal')


def vacuum(mode):
    with Node() as node:
        made = in_mode(node.socket, mode)
        commits(node, made, 1, 'begin', *[insert(key, 1000) for key in range(300)], 'commit')
        large = made.execute('pragma page_count').fetchone()[0]
        commits(node, made, 1, 'delete from t where a>20')
        commits(node, made, 1, 'vacuum')
        small = made.execute('pragma page_count').fetchone()[0]
        same(small < large / 2, True, f'{small} pages after VACUUM, {large} before, fewer than half')
        commits(node, made, 1, insert(9999))
        node.sound(seen_by(made))


def checkpoint(kind):
    """A checkpoint is no transaction."""
    with Node() as node:
        made = in_mode(node.socket, 'wal')
        for turn in range(5):
            commits(node, made, 1, 'begin', *[insert(100 * turn + key, 400) for key in range(60)], 'commit')
            commits(node, made, 0, f'pragma wal_checkpoint({kind})')
        node.sound(seen_by(made))


def switching():
    with Node() as node:
        made = connect(node.socket)
        for turn, mode in enumerate(SWITCHES):
            same(made.execute(f'pragma journal_mode={mode}').fetchall(), [(mode,)], 'the journal mode')
            made.execute(f'create table t{turn}(a)')
            made.execute(f'insert into t{turn} values(?)', (os.urandom(3000),))
        same([made.execute(f'select count(*) from t{turn}').fetchone()[0] for turn in range(len(SWITCHES))],
             [1] * len(SWITCHES), 'rows of each table')
        node.sound(seen_by(made))


checkpoints = {f'checkpoint-{kind}': lambda kind=kind: checkpoint(kind) for kind in ('passive', 'full', 'restart', 'truncate')}
run({**in_each_mode(vacuum=vacuum), **checkpoints, 'switching': switching})
