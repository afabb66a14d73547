#!/usr/bin/python3
"""`litefs run`: a program under the lock on HALT. At a replica a migration by SQLite's shell, one transaction a step, which is then at the
primary and at a third node; two at one node and at two, one after the other; `litefs run` or the whole group killed, and the lock goes with
it; a permit that ends while the program runs. At a primary it keeps out other holders of HALT, and nobody else. The program has the
streams, the folder and the environment; each status and line.

At most: 600 seconds.
Seen to fail: a program that takes no lock, in migration, kept_out, two_at_one_node, at_a_primary, ended_permit and statuses."""
import contextlib
import os
import signal
import socket
import sqlite3
import subprocess
import threading

from support import Node, commits, configuration, connect, holds, in_each_mode, insert, level_pair, places, refuses, rows, run, same, until
from support.permit import HALT, OWNER, permitted
from support.preloaded import LIMIT, needs, scratch
from support.wire import WRITING, Link, Refused

MIGRATION = ('alter table t add column d default 7', 'create index by_b on t(b)', 'create table u as select a, d from t',
             "begin; update t set b = 'new' where a < 5; delete from t where a = 9; commit", 'drop table u', 'vacuum')
TTL = 1500
READONLY, LOCKED = 'attempt to write a readonly database', 'database is locked'
REFUSED, NOT_STARTED, UNREACHED = 'litefs: halt refused\n', 'litefs: cannot start the program\n', 'litefs: network failed\n'
# tells that it runs, waits for the file `go` and tells that it ends; two of them never run at once
TURN = 'echo begins >> {told}; until [ -e {go} ]; do sleep 0.05; done; sleep 0.2; echo ends >> {told}'


def words(node, *program, name='app'):
    return [node.program, 'run', '--socket', node.socket, '--name', name, '--', *program]


def ran(node, *program, given='', name='app', **more):
    """Runs a program to its end: the status, and what was written to the two outputs."""
    done = subprocess.run(words(node, *program, name=name), input=given, capture_output=True, text=True, timeout=LIMIT, **more)
    return done.returncode, done.stdout, done.stderr


def shell(node, *steps):
    """The words of SQLite's shell on a node's database, and what it reads."""
    loads = f'.bail on\n.load {places.vfs().removesuffix(".so")}\n.open file:{node.socket}?vfs=litefs\n.timeout 60000\n'
    return [needs('sqlite3'), ':memory:'], loads + ''.join(f'{it};\n' for it in steps)


def locked(node):
    """What a writer is told at the node."""
    with contextlib.closing(connect(node.socket, 0.2)) as at:
        return str(refuses(lambda: at.execute('insert into t(a) values(-1)'), sqlite3.OperationalError, 'a write'))


@contextlib.contextmanager
def started(node, *program, group=False):
    """A program under the lock, once it has said a line; both end with the block. With the `group` they have one of their own."""
    with subprocess.Popen(words(node, *program), stdin=subprocess.DEVNULL, stdout=subprocess.PIPE, stderr=subprocess.PIPE, text=True,
                          start_new_session=group) as process:
        child = int(process.stdout.readline() or 0)
        try:
            holds(child, f'the program runs: {process.poll()}')
            yield process, child
        finally:
            for it in process.pid, child:
                with contextlib.suppress(ProcessLookupError, PermissionError):
                    os.kill(it, signal.SIGKILL)


def is_free(node):
    """Whether nobody holds HALT there."""
    with Link(node.socket) as link:
        file = link.lookup('app-lock')
        handle = link.open(file, os.O_RDWR)
        try:
            link.lock(file, handle, OWNER, WRITING, HALT, HALT)
            return True
        except Refused as refused:
            same(refused.errno, 11, 'the error of a lock that another has')
            return False


def migration(mode):
    with level_pair(mode) as (primary, replica, writer), Node(following=primary) as third:
        before = primary.position().txid
        program, script = shell(replica, *MIGRATION)
        done = subprocess.run(program, input=script, capture_output=True, text=True, timeout=LIMIT)
        holds(done.returncode and READONLY in done.stderr, f'without it: {done}')
        same(primary.position().txid, before, 'transactions without it')
        same(ran(replica, *program, given=script), (0, '', ''), 'the migration')
        same(primary.position().txid, before + len(MIGRATION), 'transactions at the primary')
        for node in replica, third:
            primary.level(node)
        same(writer.execute('select count(*), sum(d) from t where b = ?', ('new',)).fetchall(), [(5, 35)], 'the rows at the primary')
        until(lambda: locked(replica) == READONLY, 'a write behind it is refused')
        commits(primary, writer, 1, 'delete from t where a = 1')
        primary.level(replica)
        primary.sound()


def kept_out(mode):
    """While a program runs at a replica nobody writes at the primary, or at a third node; behind it they do."""
    with level_pair(mode) as (primary, replica, writer), Node(following=primary) as third:
        with started(replica, 'sh', '-c', 'echo $$; exec sleep 1000') as (process, child):
            same((locked(primary), locked(third)), (LOCKED, READONLY), 'writes elsewhere')
            os.kill(child, signal.SIGTERM)
            same(process.wait(LIMIT), 255, 'the status of a program that a signal ended')
        until(lambda: is_free(replica), 'the lock is given back')
        commits(primary, writer, 1, 'delete from t where a = 1')


def turns_of(nodes, statuses):
    """Two programs at once: those that run do so one after the other, and the statuses are among these."""
    with scratch() as folder:
        told, go = f'{folder}/told', f'{folder}/go'
        program = 'sh', '-c', TURN.format(told=told, go=go)
        ends = [None, None]

        def one(number):
            ends[number] = ran(nodes[number], *program)
        threads = [threading.Thread(target=one, args=(it,)) for it in range(2)]
        for it in threads:
            it.start()
        until(lambda: os.path.exists(told), 'one of them runs')
        open(go, 'w').close()
        for it in threads:
            it.join()
        with open(told) as file:
            lines = file.read().split()
    for it in ends:
        holds(it in statuses, f'how it ends: {it}')
    count = sum(it[0] == 0 for it in ends)
    same(lines, ['begins', 'ends'] * count, 'one after the other')
    return count


def two_at_one_node():
    """The second waits for the lock, and gets it."""
    with Node() as node:
        same(turns_of((node, node), [(0, '', '')]), 2, 'programs that ran')


def two_at_two_replicas():
    """The same: the second waits for the permit."""
    with level_pair('delete') as (primary, replica, writer), Node(following=primary) as third:
        primary.level(third)
        same(turns_of((replica, third), [(0, '', '')]), 2, 'programs that ran')
        until(lambda: is_free(replica), 'the lock is given back')


def killed():
    """kill -9 of `litefs run`: the lock goes with its link, and the program goes on without it."""
    with Node() as node, started(node, 'sh', '-c', 'echo $$; exec sleep 1000') as (process, child):
        same(is_free(node), False, 'the lock while it runs')
        process.kill()
        until(lambda: is_free(node), 'the lock is free')
        os.kill(child, 0)
        same(ran(node, 'true'), (0, '', ''), 'the next one')


def killed_at_a_replica(mode):
    """The same at a replica: its permit goes back, and the primary writes."""
    with level_pair(mode) as (primary, replica, writer):
        with started(replica, 'sh', '-c', 'echo $$; exec sleep 1000') as (process, _):
            same(locked(primary), LOCKED, 'a write at the primary')
            process.kill()
            until(lambda: is_free(replica), 'the lock is free')
        commits(primary, writer, 1, 'delete from t where a = 1')
        primary.level(replica)


def interrupted():
    """^C, which a terminal sends to both."""
    with Node() as node, started(node, 'sh', '-c', 'echo $$; exec sleep 1000', group=True) as (process, child):
        os.killpg(process.pid, signal.SIGINT)
        same(process.wait(LIMIT), -signal.SIGINT, 'how it ends')
        until(lambda: is_free(node), 'the lock is free')
        until(lambda: not os.path.exists(f'/proc/{child}/cmdline') or not open(f'/proc/{child}/cmdline').read(), 'the program ends')


def ended_permit(mode):
    """A permit that ends while the program runs: its next commit is refused, and the status is the program's."""
    with Node(starts=False) as primary:
        primary.configure(f'{configuration(primary.port)}halt-ttl = {TTL}\n')
        primary.begin()
        with contextlib.closing(connect(primary.socket)) as made:
            made.execute(f'pragma journal_mode={mode}')
            made.execute('create table t(a)')
        with Node(following=primary) as replica:
            primary.level(replica)
            program, script = shell(replica, 'begin immediate', 'insert into t values(1)', 'commit')
            slow = script.replace('commit;', f'.shell sleep {2 * TTL / 1000}\ncommit;')
            status, out, errors = ran(replica, *program, given=slow)
            same((status, out), (1, ''), 'a program that is too slow')
            holds('litefs: ' not in errors and errors, f'what the shell says: {errors!r}')
            same(ran(replica, *program, given=script), (0, '', ''), 'the same, fast enough')
            same([it for it, in rows_at(primary)], [1], 'the rows')


def rows_at(node):
    with contextlib.closing(connect(node.socket)) as at:
        return at.execute('select a from t').fetchall()


def at_a_primary(mode):
    """The lock keeps out other holders of HALT, and nobody else."""
    with level_pair(mode) as (primary, replica, writer):
        with started(primary, 'sh', '-c', 'echo $$; exec sleep 1000'):
            same(is_free(primary), False, 'the lock while it runs')
            commits(primary, writer, 1, insert(100))
            with permitted(replica.socket), contextlib.closing(connect(replica.socket)) as at:
                commits(replica, at, 1, insert(101))
        same(rows(writer)[0], 12, 'the rows')


def has_the_streams():
    """The program has the streams, the folder and the environment, and its words as they are."""
    with Node() as node, scratch() as folder:
        script = 'cat; pwd; echo "$WORD"; echo "$@"; echo err >&2; exit 7'
        got = ran(node, 'sh', '-c', script, 'sh', '--', '--name', '', given='in\n', cwd=folder, env={**os.environ, 'WORD': 'a b'})
        same(got, (7, f'in\n{os.path.realpath(folder)}\na b\n-- --name \n', 'err\n'), 'what it has')


def statuses():
    with Node() as node:
        for status in 0, 1, 7, 255:
            same(ran(node, 'sh', '-c', f'exit {status}'), (status, '', ''), 'the program\'s status')
        same(ran(node, 'sh', '-c', 'kill -9 $$'), (255, '', ''), 'a program that a signal ends')
        same(ran(node, 'no-such-program'), (10, '', NOT_STARTED), 'no such program')
        same(ran(node, '/'), (10, '', NOT_STARTED), 'a folder')
        same(ran(node, 'true', name='other'), (11, '', REFUSED), 'another database')
        until(lambda: is_free(node), 'the lock is given back')
        for more in (), ('--socket', node.socket), ('--name', 'app', '--', 'true'), ('--socket', node.socket, '--name', 'app', 'true'):
            done = subprocess.run([node.program, 'run', *more], capture_output=True, text=True, timeout=LIMIT)
            same((done.returncode, done.stdout, done.stderr), (2, '', 'litefs: words refused\n'), 'other words')
        node.kill()
        same(ran(node, 'true'), (7, '', UNREACHED), 'a node that is gone')
        os.remove(node.socket)
        same(ran(node, 'true'), (7, '', UNREACHED), 'no socket')


def no_node():
    """A socket at which something else answers, or hangs up."""
    with Node() as node:
        for reply in b'', b'HTTP/1.1 400 Bad Request\r\n\r\n':
            node.kill()
            os.remove(node.socket)
            with socket.socket(socket.AF_UNIX) as listener:
                listener.bind(node.socket)
                listener.listen()
                answering = threading.Thread(target=answers, args=(listener, reply))
                answering.start()
                same(ran(node, 'true'), (3, '', 'litefs: input refused: BadReply\n'), 'no node')
                answering.join()


def answers(listener, reply):
    link, _ = listener.accept()
    with link:
        link.recv(4096)
        link.sendall(reply)


run({**in_each_mode(('delete', 'wal'), migration=migration, ended_permit=ended_permit),
     **in_each_mode(('delete',), kept_out=kept_out, killed_at_a_replica=killed_at_a_replica, at_a_primary=at_a_primary),
     'two_at_one_node': two_at_one_node, 'two_at_two_replicas': two_at_two_replicas, 'killed': killed, 'interrupted': interrupted,
     'has_the_streams': has_the_streams, 'statuses': statuses, 'no_node': no_node}, at_once=2)
