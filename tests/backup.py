#!/usr/bin/python3
"""`litefs backup` in a loop, killed at random, while real SQLite writes through the client: with VACUUM, imports, a change of the page
size and a database that is dropped and made anew between. Every transaction with which a file of the backup ends is restored: SQLite finds
it sound, and it is the copy that was taken at that transaction. A log that is pruned between two backups costs the older restores. A full
disk ends a backup, and the next one goes on. What is refused is refused by its name.

At most: 1500 seconds.
Seen to fail: a `settle` that keeps the eight beside the one; a `restore` that stops one file short."""
import collections
import contextlib
import glob
import os
import random
import re
import sqlite3
import subprocess
import tempfile
import threading
import time

from support import KEEP_ALL, Link, Node, connect, count, fill, holds, in_mode, insert, length, run, same, small_disk
from support.preloaded import scratch
from support.wire import ROOT_NODE, UNLINK

WRITES, IDLE = length(300, 3000), length(40, 300)
LEVELS = ('l0', 'l1', 'l2')

PRINTED = re.compile(rb'backup ([0-9a-f]{16})/([0-9a-f]{16})\n')


class Backup:
    """A folder for the backup of a node's database."""
    def __init__(self, node, folder):
        self.node = node
        self.folder = folder

    def words(self, name='app'):
        return [self.node.program, 'backup', '--name', name, '--addr', f'127.0.0.1:{self.node.port}']

    def ran(self, *words):
        ran = subprocess.run([self.node.program, *words], cwd=self.folder, stdout=subprocess.PIPE, stderr=subprocess.PIPE, timeout=300)
        return ran.returncode, ran.stdout, ran.stderr

    def make(self):
        """Backs up, and answers the transaction that it printed."""
        status, out, errors = self.ran(*self.words()[1:])
        same((status, errors), (0, b''), 'a backup')
        printed = PRINTED.fullmatch(out)
        holds(printed, f'what a backup prints: {out}')
        return int(printed[1], 16)

    def make_or_die(self, seconds):
        """Backs up, and is killed after so many seconds."""
        made = subprocess.Popen(self.words(), cwd=self.folder, stdout=subprocess.PIPE, stderr=subprocess.PIPE)
        with contextlib.suppress(subprocess.TimeoutExpired):
            made.wait(seconds)
        made.kill()
        return made.communicate()

    def restored(self, txid):
        return self.ran('restore', '--name', 'app', '--txid', f'{txid:016x}')

    def files(self, level):
        return sorted(map(os.path.basename, glob.glob(os.path.join(self.folder, 'dbs', f'app.{level}', 'ltx', '*.ltx'))))

    def maxima(self):
        return sorted({int(it[17:33], 16) for level in LEVELS for it in self.files(level)})


@contextlib.contextmanager
def backing_up(node):
    with scratch() as folder:
        yield Backup(node, folder)


def exported(node):
    ran = subprocess.run([node.program, 'export', '--name', node.database, '--addr', f'127.0.0.1:{node.port}'], stdout=subprocess.PIPE,
                         stderr=subprocess.PIPE, timeout=300)
    same((ran.returncode, ran.stderr), (0, b''), 'an export')
    return ran.stdout


def imported(node, data):
    ran = subprocess.run([node.program, 'import', '--name', node.database, '--addr', f'127.0.0.1:{node.port}'], input=data, stdout=subprocess.PIPE,
                         stderr=subprocess.PIPE, timeout=300)
    return ran.returncode


def sound(data):
    with tempfile.NamedTemporaryFile() as file:
        file.write(data)
        file.flush()
        with contextlib.closing(sqlite3.connect(f'file:{file.name}?immutable=1', uri=True)) as at:
            same(at.execute('pragma integrity_check').fetchall(), [('ok',)], 'integrity of what was restored')


class Writer:
    """Writes at a node, and keeps a copy of the database after each transaction."""
    def __init__(self, node, mode):
        self.node, self.mode = node, mode
        self.copies = collections.defaultdict(set)
        self.begin()

    def begin(self, page_size=4096):
        self.at = in_mode(self.node.socket, self.mode, page_size)
        self.keep()

    def keep(self):
        self.copies[self.node.position().txid].add(exported(self.node))

    def write(self, turn):
        if turn == WRITES // 3:
            self.drop()
        elif turn % 97 == 96:
            self.at.execute('vacuum')
        elif turn % 211 == 210:
            self.bring(turn)
        else:
            self.change(turn)
        self.keep()

    def change(self, turn):
        self.at.execute('begin')
        fill(self.at, range(turn * 10, turn * 10 + random.randrange(1, 5)))
        self.at.execute('delete from t where a%7=?', (random.randrange(7),))
        self.at.execute('commit')

    def drop(self):
        """The database is dropped, and made anew."""
        self.at.close()
        with Link(self.node.socket) as link:
            link.ask(UNLINK, ROOT_NODE, b'app\0')
        self.begin(random.choice((512, 1024, 4096)))

    def bring(self, turn):
        """A database of another page size is imported."""
        self.at.close()
        with scratch() as folder:
            path = os.path.join(folder, 'database')
            with contextlib.closing(sqlite3.connect(path, isolation_level=None)) as made:
                made.execute('pragma page_size=2048')
                made.execute(f'pragma journal_mode={self.mode}')
                made.execute('create table t(a integer primary key,b,c)')
                fill(made, range(turn % 50))
                if self.mode == 'wal':
                    made.execute('pragma wal_checkpoint(truncate)')
            with open(path, 'rb') as file:
                same(imported(self.node, file.read()), 0, 'the import')
        self.at = connect(self.node.socket)


def kept(mode):
    """Every transaction that a backup kept is restored as it was."""
    with Node() as node, backing_up(node) as backup:
        writer, going = Writer(node, mode), threading.Event()
        looping = threading.Thread(target=loop, args=(backup, going))
        looping.start()
        try:
            for turn in range(WRITES):
                writer.write(turn)
        finally:
            going.set()
            looping.join()
        same(backup.make(), node.position().txid, 'the last backup stands where the node does')
        compare(backup, writer.copies)
        same(backup.restored(backup.maxima()[-1])[1] == exported(node), True, 'the last restore is the database')


def loop(backup, going):
    """Backs up again and again; some are killed."""
    while not going.wait(0.05):
        backup.make_or_die(random.choice((0.01, 0.03, 0.1, 0.3, 30)))


def compare(backup, copies):
    maxima = backup.maxima()
    holds(maxima, 'the backup has files')
    for txid in maxima:
        status, data, errors = backup.restored(txid)
        same((status, errors), (0, b''), f'the restore of {txid}')
        same(data in copies[txid], True, f'the restore of {txid} is a copy of it')
        sound(data)


def steady():
    """One lineage, backed up after each few commits: what is kept is restored, and what is not is named."""
    with Node() as node, backing_up(node) as backup:
        writer = Writer(node, 'delete')
        for turn in range(WRITES // 2):
            writer.change(turn)
            writer.keep()
            if turn % 3 == 0:
                same(backup.make(), node.position().txid, 'where the backup ends')
        compare(backup, writer.copies)
        holds(all(len(backup.files(level)) < 8 for level in LEVELS[:2]), 'no level but the last has eight files of one page size')
        gone = sorted(set(range(1, node.position().txid)) - set(backup.maxima()))
        same(backup.restored(gone[0]), (3, b'', b'litefs: input refused: NoSuchTxid\n'), 'a transaction that no file ends with')
        same(backup.make(), node.position().txid, 'a backup with nothing new')


def pruned():
    """A log that was pruned past the backup's end: a snapshot comes in place of all, and older restores are gone."""
    with Node(keep=8) as node, backing_up(node) as backup:
        with contextlib.closing(in_mode(node.socket, 'delete')) as at:
            fill(at, range(5))
            first = backup.make()
            fill(at, range(5, 40))
        last = backup.make()
        same(backup.maxima(), [last], 'the snapshot alone')
        same(backup.restored(first)[0], 3, 'an older restore')
        same(backup.restored(last)[1] == exported(node), True, 'the last restore')


def idle():
    """A node with nothing new is backed up again and again, more often than it has jobs in a while."""
    with Node() as node, backing_up(node) as backup:
        with contextlib.closing(in_mode(node.socket, 'delete')) as at:
            fill(at, range(3))
        last = backup.make()
        for _ in range(IDLE):
            same(backup.make(), last, 'a backup with nothing new')
        holds(exported(node), 'the node answers')


def refused():
    with Node() as node, Node(following=node) as replica, backing_up(node) as backup, backing_up(replica) as other:
        nothing = b''
        same(backup.restored(1), (3, nothing, b'litefs: input refused: NoSuchTxid\n'), 'a restore of nothing')
        with contextlib.closing(in_mode(node.socket, 'delete')) as at:
            fill(at, range(3))
        last = backup.make()
        same(other.ran(*other.words()[1:]), (3, nothing, b'litefs: input refused: Reply\n'), 'a backup of a replica')
        same(backup.ran(*backup.words('apq')[1:]), (3, nothing, b'litefs: input refused: Reply\n'), 'another database')
        same(backup.ran('backup', '--name', 'a' * 62, '--addr', '127.0.0.1:1'), (2, nothing, b'litefs: words refused\n'), 'a name without room')
        for words in (['--txid', '1'], ['--name', 'app'], ['--name', 'app', '--txid', '1'], ['--name', 'app', '--txid', 'A' * 16]):
            same(backup.ran('restore', *words), (2, nothing, b'litefs: words refused\n'), f'restore {" ".join(words)}')
        damage(backup, last)
        node.kill()
        same(backup.ran(*backup.words()[1:]), (7, nothing, b'litefs: network failed\n'), 'a backup of a node that is gone')


def damage(backup, last):
    """A byte of a file that is another one: the backup is named damaged, and stands as it was once the byte is back."""
    path = sorted(glob.glob(os.path.join(backup.folder, 'dbs', 'app.l0', 'ltx', '*.ltx')))[-1]
    with open(path, 'rb') as file:
        data = file.read()
    with open(path, 'r+b') as file:
        file.seek(len(data) - 20)
        file.write(bytes([data[-20] ^ 1]))
    same(backup.restored(last), (3, b'', b'litefs: input refused: Damaged\n'), 'a restore of a damaged backup')
    same(backup.ran(*backup.words()[1:]), (3, b'', b'litefs: input refused: Damaged\n'), 'a backup into it')
    with open(path, 'r+b') as file:
        file.write(data)
    same(backup.restored(last)[0], 0, 'a restore with the byte back')


def dropped():
    """The node's database is dropped, and the backup stays; a database that is made anew takes its place."""
    with Node() as node, backing_up(node) as backup:
        with contextlib.closing(in_mode(node.socket, 'delete')) as at:
            fill(at, range(3))
        last, data = backup.make(), exported(node)
        with Link(node.socket) as link:
            link.ask(UNLINK, ROOT_NODE, b'app\0')
        same(backup.ran(*backup.words()[1:]), (3, b'', b'litefs: input refused: Dropped\n'), 'a backup of a dropped database')
        same(backup.restored(last)[1] == data, True, 'a restore then')
        with contextlib.closing(in_mode(node.socket, 'delete')) as at:
            fill(at, range(5))
        same(backup.make(), node.position().txid, 'a backup of the new one')


def one_at_a_time():
    """While a backup has the folders, no other has them."""
    with Node() as node, backing_up(node) as backup:
        with contextlib.closing(in_mode(node.socket, 'delete')) as at:
            fill(at, range(100))
        made = subprocess.Popen(backup.words(), cwd=backup.folder, stdout=subprocess.PIPE, stderr=subprocess.PIPE)
        ends = {backup.ran(*backup.words()[1:])[0] for _ in range(5)}
        ends.add(made.wait(60))
        holds(ends <= {0, 5} and 0 in ends, f'one has the folders, and the others come behind it or are told so: {ends}')
        same(backup.make(), node.position().txid, 'the last one')


def full():
    """A backup into a disk that is full, and into the same with room."""
    with Node() as node, small_disk('size=400k') as disk:
        backup = Backup(node, disk.folder)
        with contextlib.closing(in_mode(node.socket, 'delete')) as at:
            for turn in range(100):
                fill(at, range(turn * 10, turn * 10 + 10))
                status, out, errors = backup.ran(*backup.words()[1:])
                if status:
                    break
            same((status, out, errors), (5, b'', b'litefs: disk failed\n'), 'a backup into a full disk')
            disk.remount('size=40m')
            same(backup.make(), node.position().txid, 'the next one')
            same(backup.restored(backup.maxima()[-1])[1] == exported(node), True, 'its restore')


run({'kept-delete': lambda: kept('delete'), 'kept-wal': lambda: kept('wal'), 'steady': steady, 'pruned': pruned, 'idle': idle, 'refused': refused,
     'dropped': dropped, 'one_at_a_time': one_at_a_time, 'full': full}, at_once=2)
