"""The files of a node as a folder, by `litefs-fuse`: the environment's LITEFS_FUSE, or what cargo makes of its sources.
LITEFS_FUSE_OPTIONS are added to every mount's."""
import functools
import os
import re
import shutil
import sqlite3
import subprocess
import sys
import tempfile

from . import places
from .cases import Skipped, Wrong, same, skip_all
from .waiting import until

WAYS = ('passthrough', 'notify')
SOURCES = os.path.join(places.ROOT, 'clients/litefs-fuse')
UNTIL_WE_END = '--until-stdin-ends'
PRELUDE = '''import os, sqlite3, sys, time
def said(text): os.write(1, text.encode())
def connect(): return sqlite3.connect(path, isolation_level=None, timeout=60)
path = {path!r}
'''


@functools.cache
def fuse_program():
    """The program, built where it isn't given."""
    given = os.environ.get('LITEFS_FUSE')
    if given:
        return os.path.abspath(given)
    need_rust()
    subprocess.run(['cargo', 'build', '--release', '--offline', '--quiet'], cwd=SOURCES, check=True)
    return os.path.join(SOURCES, 'target/release/litefs-fuse')


def need_rust():
    """Skips where there is no cargo, no C compiler that it links by, or a compiler that is older than the sources want."""
    try:
        said = [subprocess.run([it, '--version'], capture_output=True, text=True, check=True).stdout for it in ('cc', 'cargo', 'rustc')]
    except (OSError, subprocess.CalledProcessError):
        raise Skipped('no cargo with a compiler and a linker here, and LITEFS_FUSE is not set')
    with open(os.path.join(SOURCES, 'Cargo.toml')) as file:
        least = re.search(r'^rust-version = "1\.(\d+)"', file.read(), re.M)
    if int(re.match(r'rustc 1\.(\d+)', said[2])[1]) < int(least[1]):
        raise Skipped(f'{said[2].strip()} is older than 1.{least[1]}')


class Mount:
    """A node's files at a new folder. Unmounted and removed at the end of its block.

    `way`: how the shared memory is to be shared, or none for the best there is. `socket`: another than the node's. `before`: a command
    that starts the program."""

    def __init__(self, node, way=None, options=(), socket=None, words=(), starts=True, before=()):
        self.node = node
        self.way = way
        more = os.environ.get('LITEFS_FUSE_OPTIONS', '').split(',')
        self.options = [f'name={node.database}', *options, *more, *(['notify'] if way == 'notify' else [])]
        self.socket = socket or node.socket
        self.words = list(words)
        self.before = list(before)
        self.folder = tempfile.mkdtemp(prefix='litefs-mount-')
        self.path = os.path.join(self.folder, node.database)
        self.said = tempfile.NamedTemporaryFile(prefix='litefs-mount-errors-')
        self.process = None
        self.started = False
        if starts:
            self.start()

    def __enter__(self):
        return self

    def __exit__(self, *_):
        self.end()
        shutil.rmtree(self.folder)
        self.said.close()

    def start(self):
        """Mounts, and waits until it has. It would also end with this script, however the script ends."""
        self.said.truncate(0)
        with open(self.said.name, 'ab') as errors:
            command = [*self.before, fuse_program(), self.socket, self.folder, '-o', ','.join(self.options), UNTIL_WE_END, *self.words]
            self.process = subprocess.Popen(command, stdin=subprocess.PIPE, stdout=subprocess.DEVNULL, stderr=errors,
                                            start_new_session=True)
        until(self.is_ready, 'the folder is mounted')
        self.started = True
        if self.way == 'passthrough' and 'by passthrough' not in self.errors():
            self.end()
            raise Skipped('this kernel and user have no passthrough')

    def is_ready(self):
        if self.process.poll() is not None:
            raise (Wrong if self.started else Skipped)(f'no mount: {self.errors()}')
        return re.search('^litefs-fuse: mounted.*\n', self.errors(), re.M)

    def errors(self):
        with open(self.said.name) as file:
            return file.read()

    def end(self):
        """Unmounts; what is still in use is cut off, which is a fault of the script or of the program."""
        if not self.process:
            return
        busy = False
        if os.path.ismount(self.folder) or self.is_dead():
            busy = subprocess.run(['umount', self.folder], capture_output=True).returncode != 0
            if busy:
                subprocess.run(['umount', '-l', self.folder], capture_output=True)
        try:
            self.process.wait(0 if busy else 20)
        except subprocess.TimeoutExpired:
            self.process.kill()
            self.process.wait()
        self.process.stdin.close()
        self.process = None
        uncovered(self.folder)

    def is_dead(self):
        try:
            os.stat(self.folder)
            return False
        except OSError:
            return True

    def kill(self):
        """Ends the program at once. The folder is a small empty file system then, and who has a file open is answered by another process."""
        self.process.kill()
        self.process.wait()

    def connect(self, seconds=60, **more):
        return sqlite3.connect(self.path, isolation_level=None, timeout=seconds, check_same_thread=False, **more)

    def in_mode(self, mode, page_size=4096):
        """A connection to a new database in that journal mode with a table t(a, b, c)."""
        made = self.connect()
        made.execute(f'pragma page_size={page_size}')
        same(made.execute(f'pragma journal_mode={mode}').fetchall(), [(mode,)], 'the journal mode')
        made.execute('create table t(a integer primary key,b,c)')
        return made

    def client(self, code, before=(), **more):
        """A process that runs Python, with `path`, `connect()` and `said(text)`; `before`: a command that starts it."""
        return subprocess.Popen([*before, sys.executable, '-c', PRELUDE.format(path=self.path) + code], stdout=subprocess.PIPE,
                                stderr=subprocess.STDOUT, text=True, **more)


def uncovered(folder):
    """Unmounts what stays at a folder where the program was killed."""
    while mounted_at(folder):
        subprocess.run(['umount', '-l', folder], capture_output=True)


def mounted_at(folder):
    """The kinds of file systems that are mounted there, the first below the others."""
    with open('/proc/self/mountinfo') as file:
        lines = [line.split(' - ') for line in file]
    return [kind.split()[0] for place, kind in lines if place.split()[4] == os.path.realpath(folder)]


def ended(process, limit=90):
    """Waits for a process of `client`: its status and what it said."""
    try:
        said = process.communicate(timeout=limit)[0]
    finally:
        if process.poll() is None:
            process.kill()
            process.wait()
    return process.returncode, said


def why_no_mount():
    """Why nothing can be mounted here; nothing where it can."""
    if not os.path.exists('/dev/fuse'):
        return 'no /dev/fuse here'
    folder = tempfile.mkdtemp(prefix='litefs-mount-')
    try:
        command = [fuse_program(), folder + '.sock', folder, UNTIL_WE_END]
        tried = subprocess.Popen(command, stdin=subprocess.PIPE, stderr=subprocess.PIPE, text=True)
        said = tried.stderr.readline()
        tried.terminate()
        tried.wait(60)
        tried.stdin.close()
        return '' if 'mounted' in said else f'a mount is not possible: {said}'
    except Skipped as skipped:
        return str(skipped)
    finally:
        os.rmdir(folder)


def need_mount():
    """Ends the script where nothing can be mounted here."""
    why = why_no_mount()
    if why:
        skip_all(why)


def in_each_way(**cases):
    """The cases, `name-way`, each called with its way."""
    return {f'{name}-{way}': lambda call=call, way=way: call(way) for name, call in cases.items() for way in WAYS}


def damaged(path):
    """What SQLite's own check says of the database, nothing where it is well."""
    connection = sqlite3.connect(path, timeout=60)
    try:
        found = connection.execute('pragma integrity_check').fetchall()
    finally:
        connection.close()
    return [] if found == [('ok',)] else found[:3]


def wrong(what):
    raise Wrong(what)
