#!/usr/bin/python3
"""Applications that know nothing of a node, over the VFS by LD_PRELOAD: they do on a node what they do on a plain file, and other
databases of theirs stay plain files.

At most: 600 seconds.
Seen to fail: with a library that does not make itself SQLite's default (the database is a file in the folder), and with one that
takes every path for the node's."""
import os
import sqlite3

from support import Node, Skipped, fill, holds, in_each_mode, in_mode, run, same
from support.preloaded import needs, output, preloaded, scratch

SCRIPT = '''pragma journal_mode={mode};
create table t(a integer primary key, b, c);
with recursive n(i) as (select 1 union all select i + 1 from n where i < 300)
insert into t select i, i % 7, hex(i * i) || zeroblob(200) from n;
begin; delete from t where a % 3 = 0; savepoint s; update t set b = 9; rollback to s; commit;
begin; insert into t(b) values(1); rollback;
create index i on t(b);
vacuum;
select count(*), sum(a), sum(b), sum(length(c)) from t;
select b, count(*) from t group by b;
pragma integrity_check;
pragma journal_mode;
'''
PYTHON = '''
import sqlite3, sys
with sqlite3.connect(sys.argv[1], timeout=60) as c:
    c.executescript(sys.argv[2])
    print(c.execute('select count(*), sum(a), sum(b) from t').fetchall(), c.execute('pragma integrity_check').fetchall())
c.close()
'''
BESIDE = '''
import sqlite3, sys
node, plain = sys.argv[1:]
n, p = sqlite3.connect(node, timeout=60), sqlite3.connect(plain)
n.execute('create table t(a)'); p.execute('create table t(a)')
for i in range(20):
    with n: n.execute('insert into t values(?)', (i,))
    with p: p.execute('insert into t values(?)', (i * i,))
p.execute('attach ? as node', (node,))
with p: p.execute('insert into main.t select a + 1000 from node.t')
n.execute('attach ? as plain', (plain,))
with n: n.execute('insert into main.t select a + 1000 from plain.t where a < 10')
n.execute('create temp table x as select * from t'); m = sqlite3.connect(':memory:')
n.backup(m)
print(n.execute('select count(*), sum(a) from t').fetchall(), m.execute('select count(*), sum(a) from t').fetchall())
'''


def like_a_plain_file(node, words, given=None):
    """Runs a program twice, over a node and over a plain file, {} being the path in its words."""
    with scratch() as folder:
        plain = os.path.join(folder, 'plain.db')
        wanted = output([it.replace('{}', plain) for it in words], None, given)
        got = output([it.replace('{}', f'{folder}/app') for it in words], preloaded(node.socket, folder), given)
        same(got, wanted, 'status and outputs')
        same(wanted[0], 0, 'the status over a plain file')
        same(sorted(it for it in os.listdir(folder) if it.startswith('app')), [], 'files of the database in the folder')


def shell(mode):
    with Node() as node:
        like_a_plain_file(node, [needs('sqlite3'), '{}'], SCRIPT.format(mode=mode))
        holds(node.position().txid >= 5, 'the transactions went to the node')
        node.sound()


def python(mode):
    with Node() as node:
        like_a_plain_file(node, [needs('python3'), '-c', PYTHON, '{}', SCRIPT.format(mode=mode)])
        holds(node.position().txid >= 5, 'the transactions went to the node')
        node.sound()


def other_databases_beside(mode):
    with Node() as node, scratch() as folder:
        in_mode(node.socket, mode).execute('drop table t')
        plain = os.path.join(folder, 'plain.db')
        os.mkdir(f'{folder}/node')
        environment = preloaded(node.socket, f'{folder}/node')
        got = output([needs('python3'), '-c', BESIDE, f'{folder}/node/app', plain], environment)
        near = [it * it for it in range(20) if it * it < 10]
        rows = (20 + len(near), sum(range(20)) + sum(near) + 1000 * len(near))
        same(got, (0, f'[{rows}] [{rows}]\n', ''), 'rows at the node')
        seen = sqlite3.connect(plain).execute('select count(*), sum(a) from t').fetchall()
        same(seen, [(40, sum(it * it for it in range(20)) + sum(range(20)) + 20000)], 'rows of the plain file')
        node.sound()


def library_without_a_folder():
    with Node() as node, scratch() as folder:
        environment = preloaded(node.socket, folder)
        del environment['LITEFS_DIR']
        got = output([needs('sqlite3'), f'{folder}/app', 'create table t(a); select count(*) from t'], environment)
        same(got, (0, '0\n', ''), 'status and outputs')
        holds(os.path.getsize(f'{folder}/app') > 0, 'the database is a plain file')
        same(node.position().txid, 0, 'transactions of the node')


def no_socket_is_named():
    with scratch() as folder:
        environment = preloaded('', folder, LITEFS_VERBOSE='1')
        status, _, errors = output([needs('sqlite3'), f'{folder}/app', 'create table t(a)'], environment)
        holds(status != 0 and 'unable to open database file' in errors, 'the open is refused')
        holds('LITEFS_SOCKET' in errors, 'the reason is told')
        same(os.listdir(folder), [], 'files that were made')


def another_name_in_the_folder():
    with Node() as node, scratch() as folder:
        for name in ('other', 'deeper/app'):
            status, _, errors = output([needs('sqlite3'), f'{folder}/{name}', 'create table t(a)'], preloaded(node.socket, folder))
            holds(status != 0 and 'unable to open database file' in errors, f'{name} is refused')
        same((os.listdir(folder), node.position().txid), ([], 0), 'what was made')


def read_only_at_a_replica():
    with Node() as node, Node(following=node) as replica, scratch() as folder:
        fill(in_mode(node.socket, 'wal'), range(3))
        node.level(replica)
        program = [needs('sqlite3'), f'{folder}/app', 'select count(*) from t; insert into t values(9,9,9)']
        status, said, errors = output(program, preloaded(replica.socket, folder, LITEFS_RO='1'))
        same((status != 0, said), (True, '3\n'), 'the read, and that the write is refused')
        holds('attempt to write a readonly database' in errors, 'what the write is told')
        same(output(program, preloaded(node.socket, folder, LITEFS_RO='1')), (0, '3\n', ''), 'the same at the primary')


DJANGO = '''
import sys, django
from django.conf import settings
settings.configure(DATABASES={'default': {'ENGINE': 'django.db.backends.sqlite3', 'NAME': sys.argv[1]}},
    USE_TZ=True, SECRET_KEY='x', DEFAULT_AUTO_FIELD='django.db.models.AutoField',
    INSTALLED_APPS=['django.contrib.auth', 'django.contrib.contenttypes'])
django.setup()
from django.core.management import call_command
from django.contrib.auth.models import Group, User
call_command('migrate', verbosity=0)
g = Group.objects.create(name='g')
for i in range(20): g.user_set.add(User.objects.create(username='u%d' % i))
User.objects.filter(username__startswith='u1').delete()
print(sorted(it.username for it in g.user_set.all()))
'''


def django():
    program = needs('python3')
    if output([program, '-c', 'import django'])[0]:
        raise Skipped('no Django for Python here')
    with Node() as node:
        like_a_plain_file(node, [program, '-c', DJANGO, '{}'])
        node.sound()


def sqlite_utils():
    with Node() as node:
        people = '[{"id": 1, "n": "a"}, {"id": 2, "n": "b"}]'
        like_a_plain_file(node, [needs('sqlite-utils'), 'insert', '{}', 'people', '-', '--pk', 'id'], people)
        like_a_plain_file(node, [needs('sqlite-utils'), 'query', '{}', 'select 1 as one'])
        node.sound()


run({**in_each_mode(shell=shell), **in_each_mode(('delete', 'wal'), python=python, other_databases_beside=other_databases_beside),
     'library_without_a_folder': library_without_a_folder, 'no_socket_is_named': no_socket_is_named,
     'another_name_in_the_folder': another_name_in_the_folder, 'read_only_at_a_replica': read_only_at_a_replica,
     'django': django, 'sqlite_utils': sqlite_utils})
