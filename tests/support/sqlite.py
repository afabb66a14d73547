"""Connections of real SQLite to a node, through the VFS."""
import functools
import sqlite3
import threading
import urllib.parse

from . import places
from .cases import same

MODES = ('delete', 'truncate', 'persist', 'wal')
loading = threading.Lock()


@functools.cache
def load():
    """Loads the VFS into the process, once and for good."""
    name = places.vfs()
    loader = sqlite3.connect(':memory:')
    loader.enable_load_extension(True)
    loader.load_extension(name.removesuffix('.so'))
    loader.close()


def connect(socket, seconds=60):
    """A connection to the database behind the node's socket; `seconds`: how long it waits for a lock."""
    with loading:
        load()
    return sqlite3.connect(f'file:{urllib.parse.quote(socket)}?vfs=litefs', uri=True, isolation_level=None,
                           timeout=seconds, check_same_thread=False)


def in_mode(socket, mode, page_size=4096):
    """A connection to a new database in that journal mode with a table t(a, b, c)."""
    made = connect(socket)
    made.execute(f'pragma page_size={page_size}')
    same(made.execute(f'pragma journal_mode={mode}').fetchall(), [(mode,)], 'the journal mode')
    made.execute('create table t(a integer primary key,b,c)')
    return made


def seen_by(connection):
    """The bytes of the database as the connection sees them, once its integrity is checked."""
    same(connection.execute('pragma integrity_check').fetchall(), [('ok',)], 'integrity')
    return bytes(connection.serialize())
