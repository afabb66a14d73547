#!/usr/bin/python3
"""The VFS as a loadable extension: the shell and Python by URI, how a node's database is named, other databases on one connection,
and what is refused or told where something is missing.

At most: 600 seconds.
Seen to fail: with a library that lets the record of a super-journal through (the commit is not refused), and with one that takes a
missing socket for a plain file."""
import os
import sqlite3

from support import (Node, commits, configuration, count, fill, holds, in_each_mode, in_mode, places, refuses, run, same, seen_by)
from support.preloaded import needs, output, scratch

OPEN = 'unable to open database file'


def at(path, more=''):
    """A connection by a URI of the test's own."""
    connect_once()
    return sqlite3.connect(f'file:{path}?vfs=litefs{more}', uri=True, isolation_level=None, timeout=60)


def connect_once():
    loader = sqlite3.connect(':memory:')
    loader.enable_load_extension(True)
    loader.load_extension(places.vfs().removesuffix('.so'))
    loader.close()


def by_uri(node, script):
    """Runs a script in the shell, which loads the VFS and opens the node's database."""
    lines = f'.log stderr\n.load {places.vfs().removesuffix(".so")}\n.open file:{node}?vfs=litefs\n{script}'
    return output([needs('sqlite3'), ':memory:'], None, lines)


def shell(mode):
    with Node() as node, scratch() as folder:
        script = (f'pragma journal_mode={mode};\ncreate table t(a, b);\ninsert into t values(1, 2), (3, 4);\n'
                  f'.backup {folder}/copy\nselect * from t;\n')
        same(by_uri(node.socket, script), (0, f'{mode}\n1|2\n3|4\n', ''), 'status and outputs')
        same(sqlite3.connect(f'{folder}/copy').execute('select * from t').fetchall(), [(1, 2), (3, 4)], 'the backup')
        same(by_uri(node.socket, 'select * from t;\n.dump\n')[1].count('1,2'), 1, 'the row in a dump')
        node.sound()


def named_by_the_folder_or_the_uri():
    """A socket whose name isn't the database's."""
    with Node(starts=False) as node:
        node.configure(configuration(node.port).replace('app.sock', 'other.sock'))
        node.socket = os.path.join(node.folder, 'other.sock')
        node.start()
        for more in ('', '&name=app'):
            made = at(node.socket, more)
            made.execute('create table if not exists t(a)')
            made.close()
        same(node.position().txid, 1, 'transactions')
        with scratch() as folder:
            os.rename(node.data, f'{folder}/hidden')
            os.mkdir(node.data)
            os.rename(node.data, f'{node.folder}/dbs/nothing')
            refused = refuses(lambda: at(node.socket), sqlite3.OperationalError, 'a name that is not known')
            same(str(refused), OPEN, 'what it is told')
            rows = at(node.socket, '&name=app').execute('select count(*) from t').fetchall()
            same(rows, [(0,)], 'rows by the name that is given')
        refuses(lambda: at(node.socket, '&name=nothing'), sqlite3.OperationalError, 'a name of no database')


def missing_socket():
    with scratch() as folder:
        for path in ('none.sock', 'none'):
            same(str(refuses(lambda: at(f'{folder}/{path}'), sqlite3.OperationalError, path)), OPEN, 'what it is told')
        status, _, errors = by_uri(f'{folder}/none.sock', 'create table t(a);\n')
        holds(OPEN in errors and 'connecting to the node: No such file or directory' in errors, f'the shell is told why: {errors}')
        same(os.listdir(folder), [], 'files that were made')


def a_file_that_is_no_socket():
    with scratch() as folder:
        plain = sqlite3.connect(f'{folder}/plain')
        plain.execute('create table t(a)')
        plain.close()
        before = os.stat(f'{folder}/plain')
        same(str(refuses(lambda: at(f'{folder}/plain'), sqlite3.OperationalError, 'a plain file')), OPEN, 'what it is told')
        same(os.stat(f'{folder}/plain').st_mtime_ns, before.st_mtime_ns, 'the file is as before')


def a_socket_without_a_node():
    """The socket's file is left behind by a node that was killed."""
    with Node() as node:
        node.kill()
        same(str(refuses(lambda: at(node.socket), sqlite3.OperationalError, 'a node that is gone')), OPEN, 'what it is told')


def other_databases(mode):
    """ATTACH, VACUUM INTO, a backup in and out, and temporary tables on a connection to a node."""
    with Node() as node, scratch() as folder:
        made = in_mode(node.socket, mode)
        fill(made, range(10))
        made.execute('attach ? as plain', (f'{folder}/plain',))
        made.execute('create table plain.p as select a from t')
        made.execute('create temp table x as select a from t')
        made.execute('detach plain')
        made.execute('vacuum into ?', (f'{folder}/into',))
        same(sqlite3.connect(f'{folder}/plain').execute('select count(*) from p').fetchall(), [(10,)], 'rows of an attached file')
        same(sqlite3.connect(f'{folder}/into').execute('select count(*) from t').fetchall(), [(10,)], 'rows of VACUUM INTO')
        sqlite3.connect(f'{folder}/into').backup(made)
        same(count(made), 10, 'rows after a restore by backup')
        node.sound(seen_by(made))


def a_commit_over_two_databases(mode):
    """In a rollback mode the node may have to refuse when SQLite no longer listens: refused before, and then nothing is done."""
    with Node() as node, scratch() as folder:
        made = in_mode(node.socket, mode)
        made.execute('attach ? as plain', (f'{folder}/plain',))
        made.execute('create table plain.p(a)')
        plain = sqlite3.connect(f'{folder}/plain', isolation_level=None)
        plain.execute('attach ? as node', (f'file:{node.socket}?vfs=litefs',))
        before = node.position()
        for connection, table in ((made, 'plain.p'), (plain, 'main.p')):
            connection.execute('begin')
            connection.execute(f'insert into {table} values(1)')
            connection.execute('insert into t values(1, 1, 1)')
            refused = refuses(lambda: connection.execute('commit'), sqlite3.OperationalError, 'the commit')
            same(str(refused), OPEN, 'what it is told')
            if connection.in_transaction:
                connection.execute('rollback')
        plain.execute('detach node')
        rows = plain.execute('select count(*) from p').fetchone()
        same((count(made), rows, node.position()), (0, (0,), before), 'what was done')
        commits(node, made, 1, 'insert into t values(2, 2, 2)')
        same(sorted(os.listdir(folder)), ['plain'], 'files that are left')


def a_commit_over_two_databases_in_wal_mode():
    with Node() as node, scratch() as folder:
        made = in_mode(node.socket, 'wal')
        made.execute('attach ? as plain', (f'{folder}/plain',))
        made.execute('create table plain.p(a)')
        commits(node, made, 1, 'begin', 'insert into plain.p values(1)', 'insert into t values(1, 1, 1)', 'commit')
        same(made.execute('select (select count(*) from t), (select count(*) from plain.p)').fetchone(), (1, 1), 'rows of both')


def what_a_replica_is_told(mode):
    with Node() as node, Node(following=node) as replica:
        fill(in_mode(node.socket, mode), range(5))
        node.level(replica)
        for more in ('', '&ro=1'):
            there = at(replica.socket, more)
            refused = refuses(lambda: there.execute('insert into t values(9, 9, 9)'), sqlite3.OperationalError, 'a write')
            same(str(refused), 'attempt to write a readonly database', 'what it is told')
            same((count(there), there.in_transaction), (5, False), 'rows that it reads on')
            same(there.execute('pragma integrity_check').fetchall(), [('ok',)], 'integrity')
            there.close()
        commits(node, at(node.socket, '&ro=1'), 1, 'insert into t values(9, 9, 9)')
        node.level(replica)


run({**in_each_mode(shell=shell, what_a_replica_is_told=what_a_replica_is_told),
     **in_each_mode(('delete', 'wal'), other_databases=other_databases),
     **in_each_mode(('delete', 'truncate', 'persist'), a_commit_over_two_databases=a_commit_over_two_databases),
     'a_commit_over_two_databases_in_wal_mode': a_commit_over_two_databases_in_wal_mode,
     'named_by_the_folder_or_the_uri': named_by_the_folder_or_the_uri, 'missing_socket': missing_socket,
     'a_file_that_is_no_socket': a_file_that_is_no_socket, 'a_socket_without_a_node': a_socket_without_a_node})
