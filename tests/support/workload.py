"""Pieces that workloads share."""
import contextlib
import os

from .cases import same
from .node import KEEP_ALL, Node
from .sqlite import MODES, in_mode


def commits(node, connection, wanted, *statements):
    """Runs the statements, each a text or a text with its values, and wants that many new transactions of the log."""
    before = node.position().txid
    for it in statements:
        connection.execute(*(it if isinstance(it, tuple) else (it,))).fetchall()
    same(node.position().txid - before, wanted, f'transactions of {str(statements)[:100]}')


def insert(key, size=300):
    """A row of random bytes for the table t(a, b, c)."""
    return 'insert into t values(?,?,?)', (key, f'v{key}', os.urandom(size))


def fill(connection, keys):
    """Inserts a row for each key, each in a transaction of its own."""
    for key in keys:
        connection.execute(*insert(key))


def count(connection):
    return connection.execute('select count(*) from t').fetchone()[0]


def in_each_mode(modes=MODES, **workloads):
    """The cases of these workloads, `name-mode`, each called with its mode."""
    return {f'{name}-{mode}': lambda call=call, mode=mode: call(mode) for name, call in workloads.items() for mode in modes}


@contextlib.contextmanager
def level_pair(mode, count=10, keep=KEEP_ALL):
    """A primary with a table t(a, b, c) of so many rows, each of a transaction of its own; a replica that is level; and who writes at
    the primary. Each keeps so many files of its log."""
    with Node(keep=keep) as primary, Node(following=primary, keep=keep) as replica:
        writer = in_mode(primary.socket, mode)
        fill(writer, range(count))
        primary.level(replica)
        yield primary, replica, writer
