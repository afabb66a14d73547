#!/usr/bin/python3
"""Real SQLite on a mounted database, opened by its path, in each journal mode and both ways of shared memory: rows and pages
of several sizes, a cache that spills, rollbacks, VACUUM, checkpoints, several processes, changes of the journal mode.
At the end the database file, the log applied and what SQLite saw are the same bytes.

At most: 1500 seconds.
Seen to fail: with unlocks that are not sent on (`processes`: `database is locked`)"""
import os
import random
import sqlite3

from support import MODES, Node, commits, count, fill, insert, length, refuses, run, same, seen_by
from support.mount import Mount, ended, in_each_way, need_mount


def mounted(call, **settings):
    """A case of a node and its mount in each mode; the call gets both and the mode, and answers the connection at its end.
    Of the rollback modes, which have no shared memory, the gate takes one by passthrough."""
    def case(way):
        fewer = length(way == 'passthrough', False)
        for mode in settings.get('modes', MODES):
            if fewer and mode in ('truncate', 'persist'):
                continue
            with Node() as node, Mount(node, way) as mount:
                at_end = call(node, mount, mode)
                seen = seen_by(at_end)
                at_end.close()
                node.sound(seen)
    return case


def basic(node, mount, mode):
    made = mount.in_mode(mode, 512 if mode in ('truncate', 'wal') else 4096)
    for key in range(5):
        commits(node, made, 1, insert(key))
    commits(node, made, 1, 'begin', *[insert(key) for key in range(100, 250)], 'commit')
    commits(node, made, 0, 'begin', *[insert(key) for key in range(300, 350)], 'rollback')
    commits(node, made, 1, 'begin', 'savepoint s', 'delete from t', 'rollback to s', 'update t set b=1 where a<10', 'commit')
    commits(node, made, 1, 'delete from t where a<150')
    same(count(made), 100, 'rows')
    return made


def spill(node, mount, mode):
    made = mount.in_mode(mode, 1024)
    made.execute('pragma cache_size=10')
    chance = random.Random(5)
    rows = [('insert into t values(?,0,?)', (key, chance.randbytes(500))) for key in range(200)]
    changes = [('update t set c=? where a=?', (chance.randbytes(600), chance.randrange(300))) for _ in range(100)]
    commits(node, made, 1, 'begin', *rows, 'commit')
    commits(node, made, 0, 'begin', *changes, 'rollback')
    commits(node, made, 1, 'begin', *changes, 'commit')
    return made


def vacuum(node, mount, mode):
    made = mount.in_mode(mode)
    commits(node, made, 1, 'begin', *[insert(key, 1000) for key in range(200)], 'commit')
    commits(node, made, 1, 'delete from t where a>20')
    commits(node, made, 1, 'vacuum')
    commits(node, made, 1, insert(9999))
    return made


def two(node, mount, mode):
    made, other = mount.in_mode(mode), mount.connect()
    for key in range(5):
        commits(node, made, 1, insert(key))
        commits(node, other, 1, insert(100 + key))
        same(count(other), 2 * key + 2, 'rows of both')
    made.execute('begin immediate')
    other.execute('pragma busy_timeout=50')
    refuses(lambda: other.execute(*insert(999)), sqlite3.OperationalError, 'a second writer at once')
    made.execute('rollback')
    made.close()
    return other


def processes(node, mount, mode):
    made = mount.in_mode(mode)
    code = 'c = connect()\nfor i in range({0}, {0} + 10): c.execute("insert into t values(?,?,?)", (i, i, os.urandom(200)))'
    for writer in [mount.client(code.format(1000 * k)) for k in (1, 2, 3)]:
        same(ended(writer), (0, ''), 'how a writer ends')
    same(count(made), 30, 'rows of all')
    return made


def checkpoints(node, mount, mode):
    made = mount.in_mode(mode)
    for turn, kind in enumerate(('passive', 'full', 'restart', 'truncate')):
        base = 1000 * turn
        commits(node, made, 1, 'begin', *[insert(base + key) for key in range(60)], 'commit')
        commits(node, made, 0, f'pragma wal_checkpoint({kind})')
    return made


def switching(node, mount, _):
    made = mount.connect()
    for k, mode in enumerate(('delete', 'wal', 'truncate', 'wal', 'persist', 'delete', 'wal')):
        same(made.execute(f'pragma journal_mode={mode}').fetchall(), [(mode,)], 'the mode')
        made.execute(f'create table t{k}(a)')
        made.execute(f'insert into t{k} values(randomblob(3000))')
    return made


def large(node, mount, mode):
    made = mount.in_mode(mode)
    commits(node, made, 1, 'insert into t values(1,2,randomblob(1000000))')
    same(made.execute('select length(c) from t').fetchall(), [(1000000,)], 'the length of a large value')
    copy = sqlite3.connect(':memory:')
    made.backup(copy)
    same(bytes(copy.serialize()), bytes(made.serialize()), "SQLite's backup")
    copy.close()
    out = os.path.join(node.folder, 'into.db')
    made.execute('vacuum into ?', (out,))
    same(sqlite3.connect(out).execute('select count(*) from t').fetchall(), [(1,)], 'rows of VACUUM INTO')
    fill(made, range(10, 15))
    return made


need_mount()
run(in_each_way(basic=mounted(basic), spill=mounted(spill, modes=['delete', 'wal']), vacuum=mounted(vacuum), two=mounted(two),
                processes=mounted(processes), checkpoints=mounted(checkpoints, modes=['wal']),
                switching=mounted(switching, modes=['any']), large=mounted(large, modes=['delete', 'wal'])))
