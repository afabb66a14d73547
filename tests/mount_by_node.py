#!/usr/bin/python3
"""A node that keeps the program running that mounts its files (`fuse.dir`, `fuse.program`): the words that it is run with, that it is
started again where it ended, that it ends with the node however that ends; and the mount itself, where there is a /dev/fuse: its rows, the
program killed, the node stopped, killed and started again.

At most: 600 seconds.
Seen to fail: a stand-in of the program that does not end with its standard input (`ends_with_the_node`); a litefs-fuse that mounts over the
mount of a run that is about to end (`node_restarted`)."""
import contextlib
import functools
import os
import shutil
import signal
import sqlite3
import time

from support import KEEP_ALL, MODES, Node, Skipped, configuration, holds, insert, places, run, same, seen_by, until
from support.mount import UNTIL_WE_END, fuse_program, mounted_at, uncovered, why_no_mount

STAND_IN = '''#!/bin/sh
echo "$(date +%s%N) $*" >> starts
{first}
while read -r line; do :; done
echo ended >> ends
'''
FRONT = 'litefs: mount at m by {program}: '


def configured(node, program, following=None):
    """Its files are mounted at `m`, beside its configuration."""
    text = configuration(node.port, following and following.port, KEEP_ALL)
    named = f'program = "{program}"\n' if program else ''
    node.configure(text.replace('[fuse]\n', f'[fuse]\ndir = "m"\n{named}'))


@contextlib.contextmanager
def standing_in(first=''):
    """A node, and what stands in for the program: it says when it starts and with which words, and that its standard input ended. It
    starts no process once it has said the first, so that it is one."""
    with Node(starts=False) as node:
        stand_in(os.path.join(node.folder, 'stand-in'), first)
        configured(node, './stand-in')
        node.start()
        yield node
        node.kill()
        until(lambda: not programs(node), 'the stand-in ends with the node')


def stand_in(path, first=''):
    with open(path, 'w') as file:
        file.write(STAND_IN.format(first=first))
    os.chmod(path, 0o755)


def programs(node):
    """The processes that the node runs its program in."""
    return [pid for pid in map(int, filter(str.isdigit, os.listdir('/proc'))) if is_program(node, pid)]


def is_program(node, pid):
    try:
        with open(f'/proc/{pid}/cmdline', 'rb') as file:
            words = file.read().split(b'\0')
        return UNTIL_WE_END.encode() in words and os.readlink(f'/proc/{pid}/cwd') == os.path.realpath(node.folder)
    except OSError:
        return False


def said_in(node, name):
    path = os.path.join(node.folder, name)
    if not os.path.exists(path):
        return []
    with open(path) as file:
        return file.read().splitlines()


def told(node, program='./stand-in'):
    """What it told of the mount."""
    front = FRONT.format(program=program)
    return [it.removeprefix(front) for it in node.errors().splitlines() if it.startswith(front)]


def words():
    with standing_in() as node:
        until(lambda: said_in(node, 'starts'), 'it is started')
        same([it.split(' ', 1)[1] for it in said_in(node, 'starts')], ['app.sock m -o mkdir,name=app --until-stdin-ends'], 'its words')
        until(lambda: told(node), 'a line')
        same(told(node), ['started'], 'what is told')
        same(len(programs(node)), 1, 'programs')


def ends_with_the_node():
    for how in (signal.SIGTERM, signal.SIGKILL):
        with standing_in() as node:
            until(lambda: said_in(node, 'starts'), 'it is started')
            node.process.send_signal(how)
            node.process.wait(60)
            until(lambda: said_in(node, 'ends'), f'it sees the end of its standard input after {how.name}')


def killed():
    with standing_in() as node:
        for turn in range(1, 3):
            until(lambda: len(said_in(node, 'starts')) == turn, f'start {turn}')
            os.kill(until(lambda: programs(node), 'the program')[0], signal.SIGKILL)
        until(lambda: len(said_in(node, 'starts')) == 3, 'a third start')
        until(lambda: 'ended by signal 9, is started again' in told(node), 'its end is told')
        same(node.process.poll(), None, 'the node goes on')


def ends_by_itself():
    with standing_in('exit 7') as node:
        until(lambda: len(said_in(node, 'starts')) == 4, 'four starts')
        until(lambda: told(node)[1:], 'two lines')
        # what comes again is told a minute later
        same(told(node)[:2], ['started', 'ended with status 7, is started again'], 'what is told')
        at = [int(it.split()[0]) for it in said_in(node, 'starts')]
        apart = [(later - before) / 1e9 for before, later in zip(at, at[1:])]
        holds(min(apart) > 1, f'a second at least between two starts: {apart}')
        node.position()


def no_program():
    with Node(starts=False) as node:
        configured(node, './nothing')
        node.start()
        until(lambda: told(node, './nothing'), 'a line')
        same(told(node, './nothing'), ['cannot start: no such file or directory, errno 002'], 'what is told')
        node.position()
        stand_in(os.path.join(node.folder, 'nothing'))
        until(lambda: said_in(node, 'starts'), 'it is started once it is there')
        node.kill()
        until(lambda: said_in(node, 'ends'), 'it ends with the node')


def beside():
    """Without `fuse.program` it is `litefs-fuse` where the node's own program lies."""
    with Node(starts=False) as node:
        place = os.path.join(node.folder, 'bin')
        os.mkdir(place)
        node.program = shutil.copy(places.elf(), os.path.join(place, 'litefs'))
        configured(node, None)
        node.start()
        until(lambda: told(node, 'litefs-fuse'), 'a line')
        same(told(node, 'litefs-fuse'), ['cannot start: no such file or directory, errno 002'], 'where there is none')
        stand_in(os.path.join(place, 'litefs-fuse'))
        until(lambda: said_in(node, 'starts'), 'it is started')
        node.kill()
        until(lambda: said_in(node, 'ends'), 'it ends with the node')


def without_the_key():
    with Node() as node:
        time.sleep(2)
        same((programs(node), 'mount' in node.errors()), ([], False), 'no program, and no word of one')


why = functools.cache(why_no_mount)


@contextlib.contextmanager
def mounted(following=None):
    """A node that has its files mounted, and the folder."""
    if why():
        raise Skipped(why())
    with Node(starts=False) as node:
        configured(node, fuse_program(), following)
        folder = os.path.join(node.folder, 'm')
        try:
            node.start()
            until(lambda: is_live(folder), 'the folder is mounted')
            yield node, folder
        finally:
            node.kill()
            unmounted(folder)


def is_live(folder):
    try:
        return mounted_at(folder)[-1:] == ['fuse.litefs'] and os.path.ismount(folder)
    except OSError:
        return False


def unmounted(folder):
    """The program has left the folder. What covers it is taken away, as the unit does it."""
    try:
        until(lambda: 'fuse.litefs' not in mounted_at(folder), 'the folder is unmounted')
    finally:
        uncovered(folder)


def opened(folder):
    return sqlite3.connect(os.path.join(folder, 'app'), isolation_level=None, timeout=60, check_same_thread=False)


def in_mode(folder, mode):
    made = opened(folder)
    same(made.execute(f'pragma journal_mode={mode}').fetchall(), [(mode,)], 'the journal mode')
    made.execute('create table if not exists t(a integer primary key,b,c)')
    return made


def count(folder):
    with contextlib.closing(opened(folder)) as connection:
        return connection.execute('select count(*) from t').fetchone()[0]


def rows():
    for mode in MODES:
        with mounted() as (node, folder), mounted(node) as (replica, other):
            holds('app' in os.listdir(folder), 'the first listing has the database')
            made = in_mode(folder, mode)
            for it in range(10):
                made.execute(*insert(it))
            seen = seen_by(made)
            made.close()
            node.level(replica)
            same((count(folder), count(other)), (10, 10), 'rows at both')
            replica.kill()
            unmounted(other)
            node.sound(seen)


def program_killed():
    for mode in MODES:
        with mounted() as (node, folder):
            writer = in_mode(folder, mode)
            writer.execute(*insert(1))
            writer.execute('begin immediate')
            writer.execute(*insert(2))
            first = programs(node)
            os.kill(first[0], signal.SIGKILL)
            until(lambda: programs(node) not in ([], first), 'another program')
            until(lambda: is_live(folder), 'the folder is mounted again')
            same(count(folder), 1, 'rows')
            with contextlib.suppress(sqlite3.Error):
                writer.close()
            holds('ended by signal 9, is started again' in told(node, fuse_program()), 'its end is told')


def node_ends():
    for how in (signal.SIGTERM, signal.SIGKILL):
        for used in (False, True):
            with mounted() as (node, folder):
                user = in_mode(folder, 'wal')
                if not used:
                    user.close()
                node.process.send_signal(how)
                node.process.wait(60)
                until(lambda: mounted_at(folder) == ['tmpfs'], f'the mount goes after {how.name}, and the folder stays covered')
                until(lambda: not programs(node), 'the program ends')
                same(os.listdir(folder), [], 'the folder')
                with contextlib.suppress(sqlite3.Error):
                    user.close()


def node_restarted():
    """Killed and started at once, while a connection holds the folder."""
    for mode in MODES:
        with mounted() as (node, folder):
            user = in_mode(folder, mode)
            user.execute(*insert(1))
            first = programs(node)
            node.restart()
            until(lambda: programs(node) and not set(programs(node)) & set(first), 'the program of the new run alone')
            until(lambda: is_live(folder), 'the folder is mounted')
            same(count(folder), 1, 'rows')
            with contextlib.closing(opened(folder)) as new:
                new.execute(*insert(2))
            same(count(folder), 2, 'rows')
            with contextlib.suppress(sqlite3.Error):
                user.close()


run({'words': words, 'ends_with_the_node': ends_with_the_node, 'killed': killed, 'ends_by_itself': ends_by_itself, 'no_program': no_program,
     'beside': beside, 'without_the_key': without_the_key, 'rows': rows, 'program_killed': program_killed, 'node_ends': node_ends,
     'node_restarted': node_restarted})
