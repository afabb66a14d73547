#!/usr/bin/python3
"""A process is inside a transaction on a mount, and another does to its journal what finishes one: it removes it, as `rm` does and as
SQLite does by a connection that was opened in the bare folder; it cuts it, opens it to empty it, makes it anew, zeroes its header.
It is another process, a thread of one, one in another pid namespace. In each rollback mode, before the first page is
spilled, behind that, and while the commit goes on; the transaction then ends by commit, rollback and kill. It stands whole or
not at all, as it was answered. In WAL mode no process loses its log.

At most: 900 seconds.
Seen to fail: with the UNLINK of a journal sent on as it comes (`rm`, `sqlite` in each mode and `unseen`: the database is malformed, or
half of the rows are new); with that of the log (`log`: disk I/O error)"""
import contextlib
import itertools
import os
import random
import shutil
import signal
import sqlite3
import subprocess
import sys
import tempfile
import time

from support import Node, Skipped, holds, in_each_mode, length, run, same, seen_by
from support.mount import Mount, in_each_way, need_mount

ROWS = 200
EBUSY = 16
MODES = ('delete', 'truncate', 'persist')
ACTS = ('rm', 'sqlite', 'cut', 'empty', 'create', 'zeros', 'by_path')
MOMENTS, ENDS, PLACES = ('begun', 'spilled', 'commit'), ('kill', 'rollback', 'commit'), ('process', 'thread', 'namespace')
SPILLING, ROOMY = 5, 2000
ALL_ROWS = 'update t set v=v+1, c=randomblob(300)'
MADE = ('drop table t', 'create table t(a integer primary key, v, c)', 'create index i on t(v)',
        f'with recursive k(n) as (select 1 union all select n+1 from k where n<{ROWS}) insert into t select n, 0, randomblob(300) from k')
BUSY_FOR = 0.03

# Each runs its lines one after another, in its first thread or in another, and says what came of each.
LANE = '''
import concurrent.futures, subprocess
lane = concurrent.futures.ThreadPoolExecutor(1)
def done(act, line):
    try: act(line)
    except Exception as wrong: return str(getattr(wrong, 'errno', None) or wrong)
    return 'ok'
def serve(act):
    for line in sys.stdin: said((lane.submit(done, act, line).result() if {threaded} else done(act, line)) + '\\n')
'''
OWNER = '''
c = sqlite3.connect(path, isolation_level=None, timeout=20, check_same_thread=False)
serve(lambda line: c.execute(line).fetchall() and None)
'''
STRANGER = '''
journal = path + '-journal'
def opened(flags, more=lambda file: None):
    file = os.open(journal, flags)
    try: more(file)
    finally: os.close(file)
acts = dict(
    rm=lambda: os.unlink(journal),
    cut=lambda: opened(os.O_RDWR, lambda file: os.ftruncate(file, 0)),
    empty=lambda: opened(os.O_WRONLY | os.O_TRUNC),
    create=lambda: opened(os.O_RDWR | os.O_CREAT | os.O_TRUNC),
    zeros=lambda: opened(os.O_RDWR, lambda file: os.pwrite(file, bytes(28), 0)),
    by_path=lambda: os.truncate(journal, 0),
    log=lambda: os.unlink(path + '-wal'),
    index=lambda: os.unlink(path + '-shm'),
    bare=lambda: bare(),
    sqlite=lambda: c.execute('select count(*) from t').fetchall())
c = None
def bare():
    global c
    if c: c.close()
    folder = os.path.dirname(path)
    subprocess.run(['mount', '--bind', {bare!r}, folder], check=True)
    for it in os.listdir(folder): os.remove(os.path.join(folder, it))
    c = sqlite3.connect(path, isolation_level=None, timeout=0, check_same_thread=False)
    if {filled}: c.executescript('create table t(a,v,c); insert into t values(1,1,1);')
    c.execute('select * from sqlite_schema').fetchall()
    subprocess.run(['umount', '-l', folder], check=True)
def act(line):
    name, seconds = line.split()
    end = time.monotonic() + float(seconds)
    while True:
        try: acts[name]()
        except Exception:
            if time.monotonic() >= end: raise
        if time.monotonic() >= end: return
serve(act)
'''


class Process:
    """Runs lines, each of which it answers by 'ok' or by what was wrong."""

    def __init__(self, mount, code, place='process', **told):
        before = {'namespace': ['unshare', '-p', '--fork', '--kill-child'], 'bare': ['unshare', '-m', '-p', '--fork', '--kill-child']}
        self.before = before.get(place, [])
        lane = LANE.replace('{threaded}', str(place == 'thread'))
        for name, value in told.items():
            code = code.replace('{%s}' % name, str(value)).replace('{%s!r}' % name, repr(value))
        self.process = mount.client(lane + code, before=self.before, stdin=subprocess.PIPE, start_new_session=True)

    def __enter__(self):
        return self

    def __exit__(self, *_):
        self.kill()

    def tell(self, line):
        self.process.stdin.write(line + '\n')
        self.process.stdin.flush()

    def said(self):
        return self.process.stdout.readline().rstrip('\n')

    def asked(self, line):
        self.tell(line)
        return self.said()

    def kill(self):
        if self.process.poll() is None:
            os.killpg(self.process.pid, signal.SIGKILL)
            self.process.wait()
            self.process.stdin.close()
            self.process.stdout.close()


class Trial:
    """A database on a mount, and the process that changes it."""

    def __init__(self, node, mount, mode, act):
        self.node, self.mount, self.mode, self.act = node, mount, mode, act
        with contextlib.closing(mount.in_mode(mode)) as made:
            for line in MADE:
                made.execute(line)
        self.owner = None
        self.value = 0

    def begin(self, place):
        """An owner that works in this place, with a transaction of all rows about to begin."""
        self.owner = Process(self.mount, OWNER, place)
        same(self.owner.asked(f'pragma journal_mode={self.mode}'), 'ok', 'the mode')

    def turn(self, stranger, place, end, moment):
        if self.owner is None:
            self.begin(place)
        if self.act == 'sqlite':
            same(stranger.asked('bare 0'), 'ok', 'a connection in the bare folder')
        for line in (f'pragma cache_size={SPILLING if moment != "begun" else ROOMY}', 'begin immediate', ALL_ROWS):
            same(self.owner.asked(line), 'ok', line)
        stranger.tell(f'{self.act} {BUSY_FOR if moment == "commit" else 0}')
        told = stranger.said() if moment != 'commit' else None
        said = self.ended(end, moment)
        told = told or stranger.said()
        self.whole(said, end, moment)
        holds(moment != 'spilled' or told != 'ok', f'{self.act}, {self.mode}, {end}: refused')

    def ended(self, end, moment):
        """Ends the transaction; what its owner was told."""
        if end != 'kill':
            said = self.owner.asked(end)
            if said != 'ok':
                self.lose_owner()
            return said
        if moment == 'commit':
            self.owner.tell('commit')
            time.sleep(random.random() * BUSY_FOR)
        self.lose_owner()
        return 'killed'

    def lose_owner(self):
        self.owner.kill()
        self.owner = None

    def whole(self, said, end, moment):
        """Looks by a new connection: one that was there would keep what it has read, since half a transaction has no counter of changes."""
        what = f'{self.act}, {self.mode}: {end} {moment}, told {said}'
        with contextlib.closing(self.mount.connect()) as new:
            try:
                same(new.execute('pragma integrity_check(3)').fetchall(), [('ok',)], f'{what}: integrity')
                found = new.execute('select v, count(*) from t group by v').fetchall()
            except sqlite3.Error as wrong:
                holds(False, f'{what}: {wrong}')
        old, new = [(self.value, ROWS)], [(self.value + 1, ROWS)]
        wanted = [new] if (end, said) == ('commit', 'ok') else [old]
        if said != 'ok' and (end == 'commit' or moment == 'commit'):
            wanted = [old, new]
        holds(found in wanted, f'{what}: {found} where {self.value} was before')
        self.value = found[0][0]

    def close(self):
        if self.owner:
            self.lose_owner()


@contextlib.contextmanager
def bare_folder():
    folder = tempfile.mkdtemp(prefix='litefs-bare-')
    try:
        yield folder
    finally:
        shutil.rmtree(folder)


def need_namespaces():
    if subprocess.run(['unshare', '-m', '-p', '--fork', 'true'], capture_output=True).returncode:
        raise Skipped('no namespaces for this user')


def torn(act):
    """In the gate in one of the places, another for each act and mode; in a long run 216 turns, in all of them."""
    def case(mode):
        place = PLACES[(ACTS.index(act) + MODES.index(mode)) % len(PLACES)]
        turns(act, mode, itertools.product(length([place], sorted(PLACES * 8)), ENDS, MOMENTS))
    return case


def turns(act, mode, ways, before=()):
    need_namespaces()
    with Node() as node, Mount(node, before=before) as mount, bare_folder() as bare, \
            contextlib.closing(Trial(node, mount, mode, act)) as trial:
        for place, some in itertools.groupby(ways, lambda way: way[0]):
            where = 'bare' if act == 'sqlite' else place
            with Process(mount, STRANGER, where, bare=bare, filled=True) as stranger:
                for way in some:
                    trial.turn(stranger, *way)
            trial.close()
        with contextlib.closing(mount.connect()) as new:
            seen = seen_by(new)
        node.sound(seen)


def unseen(mode):
    """The program in a pid namespace of its own sees no process. What removes a journal then is who has closed it."""
    turns('rm', mode, itertools.product(['process'] * length(1, 22), ENDS, MOMENTS), before=['unshare', '-p', '--fork', '--kill-child'])


def own_thread(mode):
    """A thread of the process that has the transaction may remove its journal."""
    with Node() as node, Mount(node) as mount:
        made = mount.in_mode(mode)
        made.execute('begin')
        made.executemany('insert into t values(?,?,zeroblob(900))', ((k, k) for k in range(ROWS)))
        for line in 'commit', f'pragma cache_size={SPILLING}', 'begin immediate', 'update t set b=b+1':
            made.execute(line)
        subprocess.run([sys.executable, '-c', 'import os,sys;os.unlink(sys.argv[1])', mount.path + '-journal'], stderr=subprocess.DEVNULL)
        holds(os.path.exists(mount.path + '-journal'), 'the journal stays')
        before = node.position().txid
        os.unlink(mount.path + '-journal')
        same(node.position().txid, before + 1, 'the position behind its removal')
        with contextlib.suppress(sqlite3.Error):
            made.execute('rollback')
        made.close()


def log(way):
    """In WAL mode no process loses its log or its index, not to SQLite either; the last one that closes removes them."""
    need_namespaces()
    with Node() as node, Mount(node, way) as mount, bare_folder() as bare:
        made = mount.in_mode('wal')
        for place in ('process', 'thread', 'namespace', 'bare'):
            made.execute('pragma wal_checkpoint(truncate)')
            with Process(mount, STRANGER, place, bare=bare, filled=False) as stranger:
                if place == 'bare':
                    same(stranger.asked('bare 0'), 'ok', 'a connection to an empty database in the bare folder')
                    stranger.asked('sqlite 0')
                else:
                    told = [stranger.asked(f'{act} 0') for act in ('log', 'index')]
            made.execute('insert into t values(null,1,1)')
            same(told, [str(EBUSY)] * 2, f'removals of log and index by a {place}')
        same(made.execute('select count(*) from t').fetchone(), (4,), 'rows')
        made.close()
        same([os.path.exists(mount.path + ending) for ending in ('-wal', '-shm')], [False] * 2, 'what is left')


need_mount()
run({**in_each_mode(MODES, **{act: torn(act) for act in ACTS}, unseen=unseen, own_thread=own_thread), **in_each_way(log=log)})
