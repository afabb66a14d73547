#!/usr/bin/python3
"""The kernel's cache of a mounted database (`-o cache`): what another mount of the same node commits is seen, at a replica each
position is, a copy by `cp` is the present position, and nothing stays of a writer that was killed in its transaction.

At most: 900 seconds.
Seen to fail: with no drop of the cache (`two_mounts`: rows of the position before); with the pages kept at each opening
(`copies`)"""
import os
import shutil
import signal

from support import Node, fill, holds, insert, run, same, until
from support.mount import Mount, damaged, in_each_way, need_mount

ROLLBACK_MODES = ('delete', 'truncate', 'persist')
ROUNDS = 6
KILLED = '''
c = connect()
c.execute('pragma cache_size=3')
c.execute('begin')
c.execute('update t set b=-1, c=zeroblob(700)')
said('written')
time.sleep(1000)
'''


def cached(node, way, *options):
    return Mount(node, way, ['cache', *options])


def numbers(connection):
    """The least and the greatest b, over every page of the table; little of it stays in SQLite's own cache."""
    connection.execute('pragma cache_size=3')
    return connection.execute('select min(b), max(b) from t').fetchone()


def set_all(connection, number):
    connection.execute('update t set b=?', (number,))


def rows(mount, mode):
    made = mount.in_mode(mode)
    made.execute('begin')
    fill(made, range(100))
    made.execute('commit')
    return made


def two_mounts(way):
    for mode in ROLLBACK_MODES:
        with Node() as node, cached(node, way) as one, cached(node, way) as other:
            writers = [rows(one, mode), other.connect()]
            for turn in range(ROUNDS):
                writer, reader = writers[turn % 2], writers[1 - turn % 2]
                set_all(writer, turn)
                same(numbers(reader), (turn, turn), f'what the other mount sees in {mode} mode')
                same(numbers(writer), (turn, turn), 'what the writer sees')
            for writer in writers:
                writer.close()


def replica(way):
    for mode in ('delete', 'wal'):
        with Node() as node, Node(following=node) as behind, cached(node, way) as one, cached(behind, way) as other:
            writer = rows(one, mode)
            node.level(behind)
            reader = other.connect()
            for turn in range(ROUNDS):
                set_all(writer, turn)
                until(lambda: node.position() == behind.position(), 'the replica stands where the primary does')
                same(numbers(reader), (turn, turn), f'what an open connection sees in {mode} mode')
            writer.close()
            reader.close()
            same(damaged(other.path), [], 'integrity')


def copies(way):
    with Node() as node, Node(following=node) as behind, cached(node, way) as one, cached(behind, way) as other:
        writer = rows(one, 'delete')
        for turn in range(ROUNDS):
            set_all(writer, turn)
            node.level(behind)
            copy = os.path.join(behind.folder, 'copy')
            shutil.copyfile(other.path, copy)
            with open(copy, 'rb') as file:
                same(file.read() == behind.image(), True, f'a copy is the present position ({turn})')
        writer.close()


def killed_writer(way):
    for mode in ('delete', 'persist', 'wal'):
        with Node() as node, cached(node, way) as mount:
            reader = rows(mount, mode)
            set_all(reader, 1)
            for _ in range(3):
                client = mount.client(KILLED)
                same(client.stdout.read(7), 'written', 'a writer in its transaction')
                client.send_signal(signal.SIGKILL)
                client.communicate(timeout=60)
                same(numbers(reader), (1, 1), f'what is there after a writer was killed in {mode} mode')
            reader.execute(*insert(1000))
            reader.close()
            same(damaged(mount.path), [], 'integrity')


need_mount()
run(in_each_way(two_mounts=two_mounts, replica=replica, copies=copies, killed_writer=killed_writer))
