"""A running node: a folder of its own with a `litefs.toml`, and the program `litefs mount` in it."""
import collections
import contextlib
import glob
import os
import subprocess

from .cases import holds, same
from .running import Running
from .waiting import until
from .wire import Link

KEEP_ALL = 1000000
CONFIGURATION = '''database = "{database}"
[fuse]
listen = "{database}.sock"
[http]
addr = "127.0.0.1:{port}"
[data]
retention-files = {keep}
[lease]
type = "static"
candidate = {candidate}
advertise-url = "http://127.0.0.1:{primary}"
hostname = "db1"
'''
# what a node says of its lease that asks a service for it, behind which service that is
LEASED = '''candidate = {candidate}
bootstrap = {bootstrap}
advertise-url = "http://127.0.0.1:{port}"
hostname = "{host}"
ttl = {ttl}
'''
SERVICE = 'type = "service"\nservice-url = "http://127.0.0.1:{port}"\n'
Position = collections.namedtuple('Position', 'txid sum')


def configuration(port, primary=None, keep=KEEP_ALL, database='app'):
    """The text of `litefs.toml`: of a primary, or of a replica of the node at the port `primary`."""
    return CONFIGURATION.format(database=database, port=port, keep=keep, primary=primary or port,
                                candidate='false' if primary else 'true')


def leased(port, service, candidate, bootstrap, keep=KEEP_ALL, database='app'):
    """The same of a node that asks the lease service which node is primary."""
    before = configuration(port, None, keep, database).split('type = ')[0]
    return before + service.told + LEASED.format(candidate=str(candidate).lower(), bootstrap=str(bootstrap).lower(), port=port,
                                                 host=f'db{port}', ttl=service.ttl)


class Node(Running):
    """A primary, or a replica of the node `following`; with a lease `service`, either, and a primary only where it is a `candidate`, which
    waits for the others where it has no database, but with `bootstrap`.

    It keeps more files than a script commits, so that its log can be applied from the first on."""
    word, called = 'mount', 'node'

    def __init__(self, following=None, keep=KEEP_ALL, database='app', folder=None, program=None, starts=True, service=None, candidate=True,
                 bootstrap=False):
        super().__init__(folder, program)
        self.database = database
        self.keep = keep
        self.socket = os.path.join(self.folder, f'{database}.sock')
        self.data = os.path.join(self.folder, 'dbs', database)
        self.configure(leased(self.port, service, candidate, bootstrap, keep, database) if service else
                       configuration(self.port, following and following.port, keep, database))
        if starts:
            self.begin()

    def follow(self, primary):
        """Makes it a replica of that node from its next start on."""
        self.configure(configuration(self.port, primary.port, self.keep, self.database))

    def lead(self):
        """Makes it a primary from its next start on."""
        self.configure(configuration(self.port, None, self.keep, self.database))

    def responds(self):
        try:
            self.position()
            return True
        except OSError:
            return False

    def lines(self):
        """The lines that it told, in all its runs, each behind `litefs: `."""
        text = self.errors()
        holds(text[-1:] in ('', '\n'), f'the last line is whole: {text[-200:]!r}')
        lines = text.splitlines()
        for it in lines:
            holds(it.startswith('litefs: '), f'a line that begins so: {it!r}')
        return [it.removeprefix('litefs: ') for it in lines]

    def news(self):
        """Its lines, but those of its starts."""
        return [it for it in self.lines() if not it.startswith('start ')]

    def position(self):
        """What its position file says."""
        with self.watched() as position:
            return position()

    @contextlib.contextmanager
    def watched(self):
        """A call that answers its position, each time by the same link."""
        with Link(self.socket) as link:
            file = link.lookup(f'{self.database}-pos')
            handle = link.open(file)
            yield lambda: position_in(link.read(file, handle).decode())

    def image(self):
        """The bytes of the database in the data directory."""
        path = os.path.join(self.data, 'database')
        return read(path) if os.path.exists(path) else b''

    def log(self):
        """The paths of the log's files, in order."""
        return sorted(glob.glob(os.path.join(glob.escape(self.data), 'ltx', '*.ltx')))

    def level(self, other):
        """Waits until the other node stands at this one's position, and compares their pages."""
        until(lambda: self.position() == other.position(), 'the replica stands where the primary does')
        same(other.image() == self.image(), True, 'at one position the replica has the primary\'s pages')

    def sound(self, seen=None):
        """Kills it and compares the database file with its log, and with what SQLite saw; a start answers its position."""
        before = self.position()
        self.kill()
        image = self.image()
        first = self.log()[:1]
        if first and os.path.basename(first[0]).startswith(f'{1:016x}-'):
            same(applied(self.program, self.log()) == image, True, 'the log applied is the database file')
        else:
            holds(not first or self.keep < KEEP_ALL, 'the log begins with transaction 1')
        if seen is not None:
            same(seen == image, True, 'the database file is what SQLite saw')
        self.start()
        same(self.position(), before, 'the position after a restart')


def position_in(text):
    txid, total = text.strip().split('/')
    return Position(int(txid, 16), total)


def read(path):
    with open(path, 'rb') as file:
        return file.read()


def applied(program, files):
    """The database that `litefs apply` makes of the files."""
    text = b''.join(read(it) for it in files)
    ran = subprocess.run([program, 'apply'], input=text, stdout=subprocess.PIPE, stderr=subprocess.PIPE, timeout=600)
    same((ran.returncode, ran.stderr), (0, b''), 'apply of the log ends well')
    return ran.stdout
