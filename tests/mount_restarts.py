#!/usr/bin/python3
"""What of a mount ends and comes back: the node is killed and started under it, the program is killed, the folder is
unmounted in use, the program's standard input ends, another run of it has the folder.

At most: 1200 seconds.
Seen to fail: with locks of a lost link refused (`node`: an open connection in WAL mode says `database is locked`); with a second process that
ends before it has taken the cover away (`auto_unmount`)"""
import contextlib
import os
import signal
import sqlite3
import subprocess

from support import Node, holds, insert, refuses, run, same, seen_by, until
from support.mount import UNTIL_WE_END, Mount, ended, fuse_program, in_each_way, mounted_at, need_mount

MODES = ('delete', 'wal')


def node_restarts(way):
    for mode in MODES:
        with Node() as node, Mount(node, way) as mount:
            idle, writer = mount.in_mode(mode), mount.connect(1)
            writer.execute('begin immediate')
            writer.execute(*insert(1))
            node.kill()
            refuses(lambda: writer.execute('commit'), sqlite3.Error, 'a commit while the node is down')
            refuses(lambda: mount.connect(1).execute('select * from t').fetchall(), sqlite3.Error, 'a new connection then')
            node.start()
            said = refuses(lambda: idle.execute('select * from t').fetchall(), sqlite3.Error, 'a connection from before')
            same(str(said), 'disk I/O error', 'what it is told')
            new = mount.connect()
            same(new.execute('select count(*) from t').fetchone(), (0,), 'rows: the commit was not made')
            new.execute(*insert(2))
            other = mount.client('print(connect().execute("select count(*) from t").fetchone()[0])')
            same(ended(other), (0, '1\n'), 'what another process sees')
            for one in (idle, writer):
                one.close()
            again = mount.connect()
            again.execute(*insert(3))
            same(new.execute('select count(*) from t').fetchone(), (2,), 'rows')
            seen = seen_by(again)
            for one in (new, again):
                one.close()
            node.sound(seen)


def node_killed_under_load(way):
    code = '''
import itertools
c = connect()
for i in itertools.count():
    c.execute('insert into t(b,c) values(?,zeroblob(700))', (i,))
    said('A')
'''
    for mode in MODES:
        with Node() as node, Mount(node, way) as mount:
            mount.in_mode(mode).close()
            known = 0
            for _ in range(3):
                client = mount.client(code + 'c.execute("pragma busy_timeout=500")')
                before = node.position().txid
                until(lambda: node.position().txid > before + 3, 'commits')
                node.kill()
                said = ended(client)[1]
                node.start()
                after = mount.connect()
                rows = after.execute('select count(*) from t').fetchone()[0]
                holds(known + said.count('A') <= rows <= known + said.count('A') + 1, f'{rows} rows, {said.count("A")} more were told')
                known = rows
                holds('malformed' not in said, said[-200:])
                after.close()
            after = mount.connect()
            seen = seen_by(after)
            after.close()
            node.sound(seen)


def program_killed(way):
    for mode in MODES:
        with Node() as node, Mount(node, way) as mount:
            writer = mount.in_mode(mode)
            writer.execute(*insert(1))
            writer.execute('begin immediate')
            writer.execute(*insert(2))
            mount.kill()
            refuses(lambda: writer.execute('commit'), sqlite3.Error, 'a commit without the program')
            until(lambda: mounted_at(mount.folder) == ['tmpfs'], 'the folder is covered')
            mount.start()
            other = mount.connect()
            same(other.execute('select count(*) from t').fetchone(), (1,), 'rows after the program was started again')
            other.execute(*insert(3))
            seen = seen_by(other)
            other.close()
            try:
                writer.close()
            except sqlite3.Error:
                pass
            node.sound(seen)


def unmounted_in_use(way):
    with Node() as node, Mount(node, way) as mount:
        user = mount.in_mode('wal')
        busy = subprocess.run(['umount', mount.folder], capture_output=True, text=True)
        holds(busy.returncode != 0, 'umount of a folder in use is refused')
        subprocess.run(['umount', '-l', mount.folder], check=True)
        user.execute(*insert(1))
        same(user.execute('select count(*) from t').fetchone(), (1,), 'rows of the connection that goes on')
        holds(mount.process.poll() is None, 'the program goes on')
        user.close()
        until(lambda: mount.process.poll() is not None, 'the program ends after the last close')
        same(mount.process.returncode, 0, 'its status')


def ends_in_order(way):
    for end in ('input', 'input in use', 'signal'):
        with Node() as node, Mount(node, way) as mount:
            user = mount.in_mode('wal')
            if end != 'input in use':
                user.close()
            if end == 'signal':
                mount.process.send_signal(signal.SIGTERM)
            else:
                mount.process.stdin.close()
            until(lambda: mount.process.poll() is not None, 'the program ends')
            left = [] if end == 'signal' else ['tmpfs']
            same((mount.process.returncode, mounted_at(mount.folder), os.listdir(mount.folder)), (0, left, []), end)
            if end == 'input in use':
                refuses(lambda: user.execute(*insert(1)), sqlite3.Error, 'a write without the program')


def mounted_already(way):
    """By a run that is about to unmount it, and by one that goes on."""
    with Node() as node, Mount(node, way) as mount:
        command = [fuse_program(), node.socket, mount.folder, '-o', 'mkdir', UNTIL_WE_END]
        second = subprocess.run(command, stdin=subprocess.PIPE, capture_output=True, text=True)
        said = f'litefs-fuse: {mount.folder}: another litefs-fuse has mounted it\n'
        same((second.returncode, second.stderr), (1, said), 'a second run beside the first')
        user = mount.in_mode('wal')
        third = subprocess.Popen(command, stdin=subprocess.PIPE, stderr=subprocess.PIPE, text=True)
        # in use it is unmounted two seconds later
        mount.process.stdin.close()
        holds('mounted' in third.stderr.readline(), 'it mounts once the first has ended')
        refuses(lambda: user.execute(*insert(1)), sqlite3.Error, 'a write by the first mount')
        with contextlib.suppress(sqlite3.Error):
            user.close()
        mount.process.wait(60)
        again = mount.connect()
        again.execute(*insert(2))
        again.close()
        third.communicate(timeout=60)
        same((third.returncode, os.listdir(mount.folder)), (0, []), 'its end')


def unmounted_after_a_kill(way):
    with Node() as node, Mount(node, way, ['auto_unmount']) as mount:
        mount.in_mode('wal').close()
        mount.kill()
        until(lambda: not mounted_at(mount.folder), 'the folder is unmounted')


need_mount()
run(in_each_way(node=node_restarts, node_under_load=node_killed_under_load, program=program_killed,
                unmount=unmounted_in_use, end=ends_in_order, already=mounted_already, auto_unmount=unmounted_after_a_kill))
