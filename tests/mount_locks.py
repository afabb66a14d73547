#!/usr/bin/python3
"""Locks and files of a mount: waits for a lock and their ends, locks of open file descriptions, 900 connections of one
process, a fork in a transaction, a wait for HALT whose primary says nothing, and what is refused of files.

At most: 1200 seconds.
Seen to fail: with one connection for all files (`silent_primary`: a read waits until the primary goes on); with a signal that ends no wait (`waits` never ends); without the FLUSH at a RELEASE (`description_locks`: the lock
stays); with a handle of the node for each open (`many`: `unable to open database file`)"""
import errno
import fcntl
import os
import resource
import sqlite3
import struct
import subprocess
import time

from support import Node, Skipped, holds, insert, refuses, run, same, until
from support.cluster import standing_still
from support.mount import Mount, ended, in_each_way, need_mount

PENDING = 0x40000000
HALT = 72
F_OFD_SETLK = 37
CONNECTIONS, DESCRIPTORS = 900, 4000
WAITER = f'''
import fcntl, signal, struct
signal.signal(signal.SIGALRM, lambda *_: (_ for _ in ()).throw(TimeoutError()))
file = os.open(path, os.O_RDWR)
said('ready ')
try:
    if %r: signal.setitimer(signal.ITIMER_REAL, .3)
    fcntl.fcntl(file, fcntl.F_SETLKW, struct.pack('hhqqi4x', fcntl.F_WRLCK, 0, {PENDING}, 1, 0))
    said('granted')
except TimeoutError:
    said('signal')
'''
HALTING = f'''
import fcntl, struct
file = os.open(path + '-lock', os.O_RDWR)
said('asks ')
fcntl.fcntl(file, fcntl.F_SETLKW, struct.pack('hhqqi4x', fcntl.F_WRLCK, 0, {HALT}, 1, 0))
said('granted')
'''


def lock(file, kind, byte, command=fcntl.F_SETLK):
    fcntl.fcntl(file, command, struct.pack('hhqqi4x', kind, 0, byte, 1, 0))


def waits(way):
    with Node() as node, Mount(node, way) as mount:
        mount.in_mode('delete').close()
        file = os.open(mount.path, os.O_RDWR)
        lock(file, fcntl.F_WRLCK, PENDING)
        same(ended(mount.client(WAITER % True)), (0, 'ready signal'), 'a wait that a signal ends')
        waiter = mount.client(WAITER % False)
        same(waiter.stdout.read(6), 'ready ', 'a waiter')
        time.sleep(0.3)
        os.stat(mount.path)
        lock(file, fcntl.F_UNLCK, PENDING)
        same(ended(waiter), (0, 'granted'), 'a wait whose lock comes free')
        lock(file, fcntl.F_WRLCK, PENDING)
        waiter = mount.client(WAITER % False)
        waiter.stdout.read(6)
        waiter.kill()
        waiter.communicate(timeout=60)
        lock(file, fcntl.F_UNLCK, PENDING)
        other = mount.client(WAITER % False)
        same(ended(other), (0, 'ready granted'), 'a lock that a killed waiter wanted')
        os.close(file)


def description_locks(way):
    with Node() as node, Mount(node, way) as mount:
        one, other = os.open(f'{mount.path}-lock', os.O_RDWR), os.open(f'{mount.path}-lock', os.O_RDWR)
        lock(one, fcntl.F_RDLCK, 10, F_OFD_SETLK)
        lock(other, fcntl.F_WRLCK, 10, F_OFD_SETLK)
        os.close(one)
        os.close(other)
        one, other = os.open(mount.path, os.O_RDWR), os.open(mount.path, os.O_RDWR)
        lock(one, fcntl.F_WRLCK, PENDING, F_OFD_SETLK)
        refused = refuses(lambda: lock(other, fcntl.F_WRLCK, PENDING, F_OFD_SETLK), OSError, 'a lock that another has')
        same(refused.errno, errno.EAGAIN, 'its error')
        os.close(one)
        until(lambda: tried(lambda: lock(other, fcntl.F_WRLCK, PENDING, F_OFD_SETLK)), 'the lock ends with its description')
        os.close(other)


def silent_primary(way):
    """Who waits for HALT at a replica, whose primary says nothing, holds up nobody else of the mount."""
    with Node() as node, Node(following=node) as replica, Mount(node, way) as first, Mount(replica, way) as mount:
        made = first.in_mode('delete')
        made.execute(*insert(1))
        made.close()
        node.level(replica)
        reader, slowest = mount.connect(), 0
        with standing_still(node):
            waiter = mount.client(HALTING)
            same(waiter.stdout.read(5), 'asks ', 'a process that wants HALT')
            end = time.monotonic() + 3
            while time.monotonic() < end:
                before = time.monotonic()
                same(reader.execute('select count(*) from t').fetchone(), (1,), 'rows')
                slowest = max(slowest, time.monotonic() - before)
        holds(slowest < 10, f'a read meanwhile took {slowest:.1f} s')
        same(ended(waiter), (0, 'granted'), 'HALT, once the primary answers')
        reader.close()


def tried(call):
    try:
        call()
        return True
    except OSError:
        return False


def many(way):
    soft, hard = resource.getrlimit(resource.RLIMIT_NOFILE)
    if hard != resource.RLIM_INFINITY and hard < DESCRIPTORS:
        raise Skipped(f'{DESCRIPTORS} descriptors are needed, and {hard} may be had')
    resource.setrlimit(resource.RLIMIT_NOFILE, (DESCRIPTORS, hard))
    with Node() as node, Mount(node, way) as mount:
        made = mount.in_mode('wal')
        made.execute(*insert(1))
        opened = []
        for _ in range(CONNECTIONS):
            opened.append(mount.connect())
            same(opened[-1].execute('select count(*) from t').fetchone(), (1,), 'rows')
        made.execute(*insert(2))
        same(opened[5].execute('select count(*) from t').fetchone(), (2,), 'rows that an early one sees')
        for one in (made, *opened):
            one.close()
    resource.setrlimit(resource.RLIMIT_NOFILE, (soft, hard))


def forked(way):
    code = '''
c = connect()
c.execute('begin immediate')
c.execute("insert into t values(1,'fork',0)")
child = os.fork()
if child == 0: os._exit(0)
os.waitpid(child, 0)
c.execute('commit')
'''
    for mode in ('delete', 'wal'):
        with Node() as node, Mount(node, way) as mount:
            made = mount.in_mode(mode)
            same(ended(mount.client(code)), (0, ''), 'a fork in a transaction')
            same(made.execute('select b from t').fetchall(), [('fork',)], 'its row')
            made.close()


def refused_files(way):
    with Node() as node, Mount(node, way) as mount:
        mount.in_mode('delete').close()
        beside = os.path.join(mount.folder, 'other')
        for what, call, number in (
                ('another file', lambda: open(beside, 'w'), errno.EPERM),
                ('a folder', lambda: os.mkdir(beside), errno.EPERM),
                ('a new name', lambda: os.rename(mount.path, beside), errno.EPERM),
                ('a link', lambda: os.link(mount.path, beside), errno.EPERM),
                ('a symbolic link', lambda: os.symlink('app', beside), errno.ENOSYS),
                ('removal of the database', lambda: os.unlink(mount.path), errno.EPERM)):
            same(refuses(call, OSError, what).errno, number, f'error of {what}')
        holds(sorted(os.listdir(mount.folder))[:1] == ['app'], 'the listing begins with the database')
        copy = subprocess.run(['cp', mount.path, os.path.join(node.folder, 'copy')])
        same(copy.returncode, 0, 'cp out of the mount')


def dropped(way):
    with Node() as node, Mount(node, way, ['drop']) as mount:
        mount.in_mode('delete').close()
        os.unlink(mount.path)
        same(os.path.getsize(mount.path), 0, 'size of a dropped database')
        same(node.position().txid, 0, 'its position')


def times(way):
    with Node() as node, Mount(node, way) as mount:
        made = mount.in_mode('delete')
        before = os.stat(mount.path).st_mtime_ns
        same(os.stat(mount.path).st_mtime_ns, before, 'the time without a transaction between')
        made.execute(*insert(1))
        holds(os.stat(mount.path).st_mtime_ns > before, 'the time after a transaction is later')
        made.close()


need_mount()
run(in_each_way(waits=waits, silent_primary=silent_primary, description_locks=description_locks, many=many, forked=forked, refused=refused_files,
                dropped=dropped, times=times))
