#!/usr/bin/python3
"""A primary's write permits over HTTP, by curl, beside real SQLite: one is out at a time; while it is, others read, and whoever would write
finds the database locked; nothing is imported. It ends when it is given back, or at its moment. None is given while somebody writes, by
a replica, for another database, or by what is no line.

At most: 300 seconds.
Seen to fail: a node that answers 404 to both calls."""
import contextlib
import sqlite3
import time

from support import Node, configuration, connect, count, curl, fill, in_each_mode, in_mode, insert, run, same

NUMBER = 7
TTL = 1500


def asked(node, number=NUMBER, name='app'):
    return curl('--data-binary', f'{name} {number:016x}\n', f'http://127.0.0.1:{node.port}/halt')


def given_back(node, number, name='app'):
    return curl('-X', 'DELETE', '--data-binary', f'{name} {number:016x}\n', f'http://127.0.0.1:{node.port}/halt')


def permit(node):
    """A permit's number, and the moment at which it ends, in seconds of the time of day; its position is the node's."""
    status, body = asked(node)
    same(status, 200, f'a permit: {body}')
    number, until, position = body.decode().rstrip('\n').split(' ')
    at = node.position()
    same(position, f'{at.txid:016x}/{at.sum}', 'the position')
    return int(number, 16), int(until, 16) / 1000


def brief(node):
    """Makes its permits end soon, from its next start on."""
    node.configure(f'{configuration(node.port)}ttl = {TTL}\n')


def locked(node, *statement):
    with contextlib.closing(connect(node.socket, 0.2)) as at:
        try:
            at.execute(*statement)
        except sqlite3.OperationalError as why:
            return str(why)
    return None


def alone(mode):
    """One permit at a time, under which nobody writes and everybody reads."""
    with Node() as node, contextlib.closing(in_mode(node.socket, mode)) as at:
        fill(at, range(5))
        before = node.position()
        number, _ = permit(node)
        same((number, asked(node, 8)), (1, (409, b'HaltHeld\n')), 'another permit')
        same(locked(node, *insert(5)), 'database is locked', 'a row under the permit')
        same(locked(node, 'begin immediate'), 'database is locked', 'a transaction under the permit')
        same((count(at), node.position()), (5, before), 'rows and position under the permit')
        same(curl('--data-binary', 'bytes', f'http://127.0.0.1:{node.port}/import?name=app'), (409, b'HaltHeld\n'), 'an import under the permit')
        same(given_back(node, 2), (409, b'HaltGone\n'), 'another number')
        same(given_back(node, 1), (200, b''), 'the permit is given back')
        same(given_back(node, 1), (409, b'HaltGone\n'), 'once more')
        fill(at, range(5, 9))
        same(permit(node)[0], 2, 'the next permit')
        same(given_back(node, 2), (200, b''), 'it is given back')
        node.sound()


def held(mode):
    """None is given while somebody is about to write."""
    with Node() as node, contextlib.closing(in_mode(node.socket, mode)) as at:
        at.execute('begin immediate')
        same(asked(node), (409, b'Held\n'), 'a permit beside a writer')
        at.execute(*insert(1))
        same(asked(node), (409, b'Held\n'), 'a permit beside a writer with a row')
        at.execute('commit')
        number, _ = permit(node)
        same(given_back(node, number), (200, b''), 'it is given back')


def ends(mode):
    """It ends at its moment, and who waits for a lock writes then."""
    with Node(starts=False) as node:
        brief(node)
        node.begin()
        with contextlib.closing(in_mode(node.socket, mode)) as at:
            _, until = permit(node)
            same(abs(until - time.time() - TTL / 1000) < 1, True, 'it ends so much later')
            at.execute(*insert(1))
            same(0 <= time.time() - until < 1, True, f'the row is in soon after its end: {time.time() - until}')
            same(given_back(node, 1), (409, b'HaltGone\n'), 'the permit then')
            same(permit(node)[0], 2, 'the next one')


def refused():
    with Node() as node, Node(following=node) as replica:
        with contextlib.closing(in_mode(node.socket, 'delete')) as at:
            fill(at, range(3))
        node.level(replica)
        url = f'http://127.0.0.1:{node.port}/halt'
        same(asked(replica), (503, b'NotPrimary\n'), 'a permit of a replica')
        same(given_back(replica, 1), (503, b'NotPrimary\n'), 'one given back to a replica')
        same(asked(node, name='apq'), (404, b''), 'a permit of another database')
        same(given_back(node, 1, 'apq'), (404, b''), 'one given back to another database')
        for line in ('', 'app 7\n', f'app {NUMBER:016X}', 'app 000000000000000A\n', f'app {NUMBER:016x}\n\n', 'a' * 70 + f' {NUMBER:016x}\n'):
            same(curl('--data-binary', line, url), (400, b''), f'the line {line!r}')
        same(curl(url), (404, b''), 'another method')
        same(permit(node)[0], 1, 'a permit behind these')


run({**in_each_mode(alone=alone, held=held, ends=ends), 'refused': refused}, at_once=2)
