#!/usr/bin/python3
"""Programs that nobody here wrote, on a mounted database: the shell of SQLite (.backup, .restore, .recover, .dump), Django
(migrations, users, three processes, a replica), sqlite-utils, and a program with an SQLite of its own linked into it.
tests/packages installs what Debian has of them.

At most: 900 seconds.
Seen to fail: with unlocks that are not sent on (`django`: of three processes two end with an error)"""
import os
import shutil
import subprocess
import sys

from support import Node, Skipped, holds, refuses, run, same, until
from support.mount import Mount, damaged, in_each_way, need_mount

PYTHON = '/usr/bin/python3'
SETTINGS = '''
SECRET_KEY = 'x'
INSTALLED_APPS = ['django.contrib.auth', 'django.contrib.contenttypes']
DATABASES = {{'default': {{'ENGINE': 'django.db.backends.sqlite3', 'NAME': {path!r}, 'OPTIONS': {{'timeout': 60}}}}}}
DEFAULT_AUTO_FIELD = 'django.db.models.AutoField'
USE_TZ = True
'''
DJANGO = '''
import sys, django
from django.conf import settings
django.setup()
from django.contrib.auth.models import User
'''


def need(found, package):
    if not found:
        raise Skipped(f'no {package} here')


def python_has(module):
    return subprocess.run([PYTHON, '-c', f'import {module}'], capture_output=True).returncode == 0


def output(command, wanted=0, **more):
    ran = subprocess.run(command, capture_output=True, text=True, timeout=120, **more)
    same(ran.returncode, wanted, f'status of {command[:3]}: {(ran.stdout + ran.stderr)[-300:]}')
    return ran.stdout


def shell(way):
    need(shutil.which('sqlite3'), 'sqlite3')
    with Node() as node, Mount(node, way) as mount:
        out = os.path.join(node.folder, 'copy.db')
        for mode in ('wal', 'delete'):
            say = lambda text, path=mount.path: output(['sqlite3', '-cmd', '.timeout 60000', path, text])
            say(f'pragma journal_mode={mode}')
            say('drop table if exists t; create table t(a integer primary key, b); '
                'with recursive n(i) as (select 1 union all select i+1 from n where i<300) insert into t select i, hex(i) from n')
            say(f'.backup {out}')
            same(output(['sqlite3', out, 'select count(*), sum(a) from t']), '300|45150\n', 'the backup')
            same(recovered(mount.path), recovered(out), '.recover of the mount and of a plain file')
            same(say('.dump').count('INSERT INTO'), 300, 'rows of .dump')
            say('delete from t')
            say(f'.restore {out}')
            same(say('select count(*) from t; pragma integrity_check'), '300\nok\n', 'the restored database')


def recovered(path):
    """What .recover says and how it ends. (Debian's 3.40.1 ends it with an error, on plain files too.)"""
    ran = subprocess.run(['sqlite3', path, '.recover'], capture_output=True, text=True, timeout=120)
    return ran.returncode, ran.stdout, ran.stderr


def django(way):
    need(python_has('django'), 'python3-django')
    with Node() as node, Node(following=node) as replica, Mount(node, way) as mount, Mount(replica, way, ['ro']) as other:
        def at(place, code):
            with open(os.path.join(node.folder, 'settings.py'), 'w') as file:
                file.write(SETTINGS.format(path=place.path))
            environment = {**os.environ, 'DJANGO_SETTINGS_MODULE': 'settings', 'PYTHONPATH': node.folder}
            return [PYTHON, '-c', DJANGO + code], environment

        def said(place, code, wanted=0):
            command, environment = at(place, code)
            return output(command, wanted, env=environment)

        said(mount, "from django.core.management import call_command\ncall_command('migrate', verbosity=0)")
        code = "for k in range(8): User.objects.create_user('user-%s-%d' % (sys.argv[1], k), password=None)"
        command, environment = at(mount, code)
        writers = [subprocess.Popen([*command, str(k)], env=environment) for k in range(3)]
        same([writer.wait(120) for writer in writers], [0, 0, 0], 'how three processes end')
        same(said(mount, 'print(User.objects.count())'), '24\n', 'users')
        node.level(replica)
        same(said(other, 'print(User.objects.count())'), '24\n', 'users at the replica')
        ran = subprocess.run(at(other, "User.objects.create_user('late')")[0], env=environment, capture_output=True, text=True)
        holds('attempt to write a readonly database' in ran.stderr, 'a replica refuses a user')
        same(damaged(mount.path), [], 'integrity')


def sqlite_utils(way):
    need(shutil.which('sqlite-utils'), 'sqlite-utils')
    with Node() as node, Mount(node, way) as mount:
        def do(*words, given=''):
            return output(['sqlite-utils', words[0], mount.path, *words[1:]], input=given)
        do('insert', 'people', '-', '--pk', 'id', given='[{"id": 1, "name": "Ada"}, {"id": 2, "name": "Bob"}]')
        do('upsert', 'people', '-', '--pk', 'id', given='[{"id": 2, "name": "Ben"}, {"id": 3, "name": "Cy"}]')
        do('enable-fts', 'people', 'name')
        same(do('query', 'select name from people order by id', '--csv'), 'name\nAda\nBen\nCy\n', 'rows')
        holds('Cy' in do('search', 'people', 'Cy'), 'a search in the text')
        do('enable-wal')
        do('insert', 'people', '-', '--pk', 'id', given='[{"id": 4, "name": "Di"}]')
        same(do('query', 'select count(*) from people', '--csv', '--no-headers'), '4\n', 'rows in WAL mode')
        same(damaged(mount.path), [], 'integrity')


def linked_in(way):
    """A C program with SQLite in it as a static library."""
    library = next((it for it in ('/usr/lib/x86_64-linux-gnu/libsqlite3.a', '/usr/lib/aarch64-linux-gnu/libsqlite3.a')
                    if os.path.exists(it)), None)
    if not library or not shutil.which('gcc'):
        raise Skipped('no gcc with a static SQLite here')
    source = r'''
#include <sqlite3.h>
#include <stdio.h>
int main(int n, char **words) {
  sqlite3 *db; char *error = 0;
  if (sqlite3_open(words[1], &db)) return 1;
  sqlite3_busy_timeout(db, 60000);
  for (int k = 2; k < n; k++) if (sqlite3_exec(db, words[k], 0, 0, &error)) { puts(error); return 2; }
  return sqlite3_close(db);
}'''
    with Node() as node, Mount(node, way) as mount:
        program = os.path.join(node.folder, 'program')
        output(['gcc', '-x', 'c', '-', '-x', 'none', library, '-o', program, '-lm', '-lpthread', '-ldl'], input=source)
        holds('libsqlite3' not in output(['ldd', program]), 'SQLite is in the program')
        for mode in ('wal', 'delete'):
            output([program, mount.path, f'pragma journal_mode={mode}', f'create table in_{mode}(a)', f'insert into in_{mode} values(1)'])
        made = mount.connect()
        same(made.execute('select * from in_wal, in_delete').fetchall(), [(1, 1)], 'its rows')
        made.close()


need_mount()
run(in_each_way(shell=shell, django=django, sqlite_utils=sqlite_utils, linked_in=linked_in))
