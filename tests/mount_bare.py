#!/usr/bin/python3
"""The folder while nothing is mounted there, since the node or the program is away: nobody makes a database in it. And what connections
that are open then are told, and how soon.

At most: 900 seconds.
Seen to fail: with the program as it was: without the file system below the mount (`node_away`, `killed_under_load`: rows that were answered are
in the bare folder; `leftover`), without the process that answers where it was killed (`first_error_program`, `lazy_unmount`: 10 and 60 seconds); with
that process without RESEND (`on_its_way`: it hangs); without the clearing of a dead mount (`both_killed`)"""
import contextlib
import os
import signal
import sqlite3
import subprocess
import time

from support import MODES, Node, Wrong, holds, insert, length, refuses, run, same, until
from support.mount import UNTIL_WE_END, Mount, damaged, fuse_program, in_each_way, mounted_at, need_mount, uncovered

WRITERS = 5
# an application that makes what it lacks, and says what was answered
APPLICATION = '''
n = 0
while True:
    n += 1
    try:
        c = connect()
        c.execute('pragma busy_timeout=2000')
        c.execute('create table if not exists t(a integer primary key,b,c)')
        for _ in range(8):
            row = 'ROW-%d' % n
            c.execute('insert into t(b,c) values(?,zeroblob(700))', (row,))
            said(row + '\\n')
            n += 1
            time.sleep(0.004)
    except sqlite3.Error as error:
        said('error %s\\n' % error)
        time.sleep(0.005)
    try: c.close()
    except (NameError, sqlite3.Error): pass
'''
FIRST = '''
c = connect()
c.execute('insert into t(b) values(1)')
c.execute('select count(*) from t').fetchall()
said('ready\\n')
if {idle}: sys.stdin.readline()
while True:
    try: {call}
    except sqlite3.Error as error:
        said('%f %s\\n' % (time.monotonic(), error))
        break
'''
TOLD = ('disk I/O error', 'attempt to write a readonly database', 'unable to open database file')
READ, WRITE = "c.execute('select count(*) from t').fetchall()", "c.execute('insert into t(b,c) values(1,zeroblob(700))')"


def make_rows(folder):
    """What an application does that knows nothing of the mount: the error, or none."""
    try:
        with contextlib.closing(sqlite3.connect(os.path.join(folder, 'app'), isolation_level=None, timeout=5)) as made:
            made.execute('create table if not exists t(a integer primary key,b,c)')
            for it in range(5):
                made.execute(*insert(it))
    except sqlite3.Error as error:
        return str(error)
    return None


def bare(mount):
    """What the folder has below the mount, once that has ended."""
    mount.process.terminate()
    mount.process.wait(60)
    same(mounted_at(mount.folder), [], 'a signal takes the mount away, and what covers the folder')
    return sorted(os.listdir(mount.folder))


def node_away(way):
    """Its program unmounts, as where the node has `fuse.dir`."""
    for mode in MODES:
        with Node() as node, Mount(node, way) as mount:
            mount.in_mode(mode).close()
            node.kill()
            mount.process.stdin.close()
            mount.process.wait(60)
            same(make_rows(mount.folder), 'unable to open database file', 'an application while the node is away')
            same((mounted_at(mount.folder), os.listdir(mount.folder)), (['tmpfs'], []), 'what the folder shows')
            node.start()
            mount.start()
            same(mount.connect().execute('select count(*) from t').fetchone(), (0,), 'the table from before')
            same((make_rows(mount.folder), bare(mount)), (None, []), 'rows then, and what the folder has below the mount')


def program_away(way):
    with Node() as node, Mount(node, way) as mount:
        mount.in_mode('wal').close()
        mount.kill()
        until(lambda: mounted_at(mount.folder) == ['tmpfs'], 'the folder shows what lies below the mount')
        same(make_rows(mount.folder), 'unable to open database file', 'an application while the program is away')
        mount.start()
        same(mounted_at(mount.folder), ['tmpfs', 'fuse.litefs'], 'one cover')
        same((make_rows(mount.folder), bare(mount)), (None, []), 'rows then, and what the folder has below the mount')


def killed_under_load(way):
    """Processes that make what they lack, while the program is killed and started: no row that was answered is lost or hidden."""
    for mode in ('delete', 'truncate', 'persist', 'wal'):
        with Node() as node, Mount(node, way) as mount:
            mount.in_mode(mode).close()
            code = APPLICATION.replace('ROW', '{}')
            writers = [mount.client(code.replace('{}', str(it))) for it in range(WRITERS)]
            said = [[it.stdout.readline().strip()] for it in writers]
            for turn in range(length(3, 50)):
                time.sleep(0.2 + turn % 7 / 20)
                mount.kill()
                mount.start()
            time.sleep(0.3)
            for it in writers:
                it.send_signal(signal.SIGTERM)
            for lines, it in zip(said, writers):
                lines += it.communicate(timeout=90)[0].splitlines()
            same(damaged(mount.path), [], f'the database in mode {mode}')
            with contextlib.closing(mount.connect()) as reader:
                rows = [row for row, in reader.execute('select b from t')]
            told = [line for lines in said for line in lines if not line.startswith('error')]
            same(sorted(set(told) - set(rows)), [], 'rows that were answered and are not there')
            same(len(set(rows)), len(rows), 'each row is there once')
            wrong = {line for lines in said for line in lines if 'malformed' in line or 'no such' in line}
            same(wrong, set(), 'what no application is told')
            same(bare(mount), [], 'what the folder has below the mount')
            holds(all(len(lines) > 1 for lines in said), f'each was at work: {[len(lines) for lines in said]}')


def leftover(way):
    with Node() as node, Mount(node, way, starts=False) as mount:
        for name, bytes_of in (('app', b'rows'), ('app-journal', b'\xd9')):
            path = os.path.join(mount.folder, name)
            with open(path, 'wb') as file:
                file.write(bytes_of)
            words = [fuse_program(), node.socket, mount.folder, UNTIL_WE_END]
            refused = subprocess.run(words, stdin=subprocess.DEVNULL, capture_output=True, text=True, timeout=60)
            same((refused.returncode, refused.stderr.split(':')[:2]), (1, ['litefs-fuse', f' {path} stands in the folder, and the mount would hide it']),
                 f'a start over {name}')
            holds('litefs import' in refused.stderr, 'what to do is said')
            same(mounted_at(mount.folder), [], 'what is mounted')
            os.remove(path)
        # an empty file holds nothing
        open(os.path.join(mount.folder, 'app'), 'w').close()
        mount.start()
        same((make_rows(mount.folder), bare(mount)), (None, ['app']), 'a start over an empty file')
        os.remove(os.path.join(mount.folder, 'app'))


def first_error(way, end):
    for mode in MODES:
        for call in (READ, WRITE):
            for idle in (False, True):
                with Node() as node, Mount(node, way) as mount:
                    mount.in_mode(mode).close()
                    same_in_time(mount, FIRST.format(idle=idle, call=call), lambda: end(node, mount), f'{mode}, {call}, idle: {idle}')


def same_in_time(mount, code, end, what):
    client = mount.client(code, stdin=subprocess.PIPE)
    try:
        same(client.stdout.readline(), 'ready\n', what)
        time.sleep(0.1)
        end()
        told_in_time(client, what)
    finally:
        client.kill()
        client.wait()


def told_in_time(client, what):
    """From now on, where it waits for a word."""
    begin = time.monotonic()
    with contextlib.suppress(BrokenPipeError):
        client.stdin.write('go on\n')
        client.stdin.flush()
    try:
        at, said = client.communicate(timeout=100)[0].strip().split(' ', 1)
    except subprocess.TimeoutExpired:
        raise Wrong(f'no error in 100 seconds: {what}')
    holds(float(at) - begin < 1, f'the first error after {float(at) - begin:.2f} s, {said}: {what}')
    holds(said in TOLD, f'{said}: {what}')


def first_error_program(way):
    first_error(way, lambda node, mount: mount.kill())


def first_error_node(way):
    first_error(way, lambda node, mount: node.kill())


def first_error_of_a_lazy_unmount(way):
    """The program ends by itself, and leaves a file that is open."""
    def end(node, mount):
        node.kill()
        mount.process.stdin.close()
        mount.process.wait(60)
    first_error(way, end)


def on_its_way(way):
    """A call that the node has not answered when the program is killed."""
    for mode in MODES:
        with Node() as node, Mount(node, way) as mount:
            mount.in_mode(mode).close()
            code = FIRST.format(idle=True, call=READ)
            client = mount.client(code, stdin=subprocess.PIPE)
            same(client.stdout.readline(), 'ready\n', 'it is there')
            node.process.send_signal(signal.SIGSTOP)
            client.stdin.write('go on\n')
            client.stdin.flush()
            time.sleep(0.5)
            same(client.poll(), None, 'it waits for the node')
            mount.kill()
            told_in_time(client, mode)
            node.process.send_signal(signal.SIGCONT)


def both_killed(way):
    """The program and the process that would go on in its place."""
    with Node() as node, Mount(node, way) as mount:
        user = mount.in_mode('delete')
        for guard in children(mount.process.pid):
            os.kill(guard, signal.SIGKILL)
        user.execute(*insert(1))
        mount.kill()
        refuses(lambda: user.execute(*insert(2)), sqlite3.Error, 'a write then')
        same((mounted_at(mount.folder), mount.is_dead()), (['tmpfs', 'fuse.litefs'], True), 'the folder')
        mount.start()
        same(mounted_at(mount.folder), ['tmpfs', 'fuse.litefs'], 'the dead mount is cleared, and one cover is there')
        with contextlib.closing(mount.connect()) as new:
            same(new.execute('select count(*) from t').fetchone(), (1,), 'rows')
        with contextlib.suppress(sqlite3.Error):
            user.close()


def children(pid):
    found = []
    for it in filter(str.isdigit, os.listdir('/proc')):
        with contextlib.suppress(OSError), open(f'/proc/{it}/stat') as file:
            if int(file.read().rsplit(')', 1)[1].split()[1]) == pid:
                found.append(int(it))
    holds(found, 'it has a second process')
    return found


def taken_away(way):
    """By an end that somebody asked for."""
    def by_hand(mount):
        subprocess.run(['umount', mount.folder], check=True)
    for end in (by_hand, *[lambda mount, it=it: mount.process.send_signal(it) for it in (signal.SIGTERM, signal.SIGINT, signal.SIGHUP)]):
        with Node() as node, Mount(node, way) as mount:
            mount.in_mode('wal').close()
            guards = children(mount.process.pid)
            end(mount)
            mount.process.wait(60)
            same((mount.process.returncode, mounted_at(mount.folder)), (0, []), 'its end')
            until(lambda: not any(os.path.exists(f'/proc/{it}') for it in guards), 'its second process ends')


def second_process_ends(way):
    """It stays while a file is open, and ends with the last."""
    with Node() as node, Mount(node, way) as mount:
        user = mount.in_mode('wal')
        guards = children(mount.process.pid)
        mount.kill()
        refuses(lambda: user.execute(*insert(1)), sqlite3.Error, 'a write')
        time.sleep(0.5)
        holds(all(os.path.exists(f'/proc/{it}') for it in guards), 'it goes on')
        with contextlib.suppress(sqlite3.Error):
            user.close()
        until(lambda: not any(os.path.exists(f'/proc/{it}') for it in guards), 'it ends')
        uncovered(mount.folder)


need_mount()
run(in_each_way(node_away=node_away, program_away=program_away, killed_under_load=killed_under_load, leftover=leftover,
                first_error_program=first_error_program, first_error_node=first_error_node, lazy_unmount=first_error_of_a_lazy_unmount,
                on_its_way=on_its_way, both_killed=both_killed, taken_away=taken_away, second_process_ends=second_process_ends))
