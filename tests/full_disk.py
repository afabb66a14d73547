#!/usr/bin/python3
"""A disk that is full, has no inode left, or turns read-only under real SQLite: the write that meets it is refused, the node says
which call of the disk failed and ends, and once it is started again each transaction that was answered is there. That the disk is
full is what the application is told, but where SQLite removes the journal at the end of a transaction.

At most: 1200 seconds.
Seen to fail: a node that takes a write without room for done: it doesn't end; one that takes links once its store broke: neither."""
import contextlib
import os
import sqlite3
import tempfile
from re import fullmatch

from support import Node, connect, count, fill, holds, in_each_mode, in_mode, insert, run, same, seen_by, small_disk

MOST = 5000
FULL = 'database or disk is full'
TOLD = {'delete': 'disk I/O error', 'truncate': FULL, 'persist': FULL, 'wal': FULL}


def until_refused(connection):
    """Inserts rows until one is refused: how many were answered, and the refusal."""
    for key in range(MOST):
        try:
            connection.execute(*insert(key, 5000))
        except sqlite3.Error as refused:
            return key, refused
    raise AssertionError(f'{MOST} rows are taken by a disk that has no room for them')


def works_again(node, answered, mode):
    """After a start with room."""
    node.restart()
    made = connect(node.socket)
    found = count(made)
    holds(found in (answered, answered + 1), f'{found} rows, {answered} of them were answered')
    fill(made, [MOST + 1])
    same(count(made), found + 1, 'rows, with a new one')
    same(made.execute('pragma journal_mode').fetchall(), [(mode if mode == 'wal' else 'delete',)], 'the journal mode')
    node.sound(seen_by(made))


def broken(options, mode, breaks, mends):
    """`breaks` is called once the node runs; `mends` gives room, or leave to write. A node that has ended before its reply is written cuts
    the application's link: it is then tried again, three times in all."""
    tries = (once_broken(options, mode, breaks, mends) for _ in range(3))
    told = next((it for it in tries if it == TOLD[mode]), 'disk I/O error')
    same(told, TOLD[mode], 'what the application is told')


@contextlib.contextmanager
def said_elsewhere(folder):
    """What a node in the folder writes to standard error goes to another disk: on its own there may be no room left for its first line."""
    with tempfile.NamedTemporaryFile(prefix='litefs-test-') as file:
        os.symlink(file.name, os.path.join(folder, 'errors'))
        yield


def once_broken(options, mode, breaks, mends):
    """What the application is told."""
    with small_disk(options) as disk, said_elsewhere(disk.folder), Node(folder=disk.folder) as node:
        made = in_mode(node.socket, mode)
        fill(made, range(-3, 0))
        breaks(disk)
        answered, refused = until_refused(made)
        broke(node)
        mends(disk)
        works_again(node, 3 + answered, mode)
        return str(refused)


def broke(node):
    """The node ends by itself, and its last two lines say why."""
    same(node.ended(), 5, 'its status')
    *_, why, last = node.lines()
    holds(fullmatch(r'store broken: cannot (write|cut|sync|rename) dbs/app/\S+: no space left, errno 028', why), f'which call failed: {why}')
    same(last, 'disk failed', 'the last line')


def nothing(_):
    pass


def full(mode):
    broken('size=1m', mode, nothing, lambda disk: disk.remount('size=16m'))


def no_inode(mode):
    broken('size=16m,nr_inodes=40', mode, nothing, lambda disk: disk.remount('nr_inodes=1000'))


def read_only(mode):
    """A disk that turns read-only under open files: the kernel refuses that for a mount that is written, so the node is
    stopped, and what is refused is its start."""
    with small_disk('size=16m') as disk, Node(folder=disk.folder) as node:
        made = in_mode(node.socket, mode)
        fill(made, range(3))
        made.close()
        node.kill()
        disk.remount('ro')
        same(node.outcome(), (5, 'litefs: disk failed\n'), 'the start over a disk that is read-only')
        disk.remount('rw')
        works_again(node, 3, mode)


def replica(mode):
    """A replica that has no room for what its primary has ends too, and with room it is level."""
    with small_disk('size=1m') as disk, Node() as primary, Node(following=primary, folder=disk.folder) as node:
        fill(in_mode(primary.socket, mode), range(3))
        primary.level(node)
        fill(connect(primary.socket), range(3, 600))
        broke(node)
        disk.remount('size=64m')
        node.start()
        primary.level(node)


run(in_each_mode(full=full, no_inode=no_inode, read_only=read_only) | in_each_mode(('delete', 'wal'), replica=replica))
