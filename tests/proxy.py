#!/usr/bin/python3
"""A web application behind the proxy of a primary and of a replica, over real SQLite: a client with a cookie jar that writes at the one
and reads at the other at once never sees the old row, one without sees it. A write at the replica is refused with the primary's name, a
read that the replica can't have yet waits, and is given up where the primary is stopped. Replies come as the application gave them,
large ones too; what is not passed on is refused, and the application doesn't hear of it.

At most: 600 seconds.
Seen to fail: a visitor whose jar is thrown away. It reads the row before its own: in `waits` at once, in `own_writes` in one of the first 64
turns, in each mode."""
import contextlib
import hashlib
import os
import threading
import time

from support import (KEEP_ALL, Node, configuration, connect, curl, fill, free_port, holds, in_each_mode, in_mode, length, rows, run,
                     same)
from support.application import Application, Saying, Visitor, exchanged, request
from support.cluster import standing_still

FIRST = 5
LARGE = 60 << 20
LIMIT = 64 << 20


class Site:
    """A node, and an application behind its proxy, which listens at `door`."""

    def __init__(self, stack, primary=None, target=None):
        self.application = stack.enter_context(Application())
        self.node = self.application.node = stack.enter_context(Node(starts=False))
        self.door = free_port()
        self.node.configure(configuration(self.node.port, primary and primary.node.port, KEEP_ALL) +
                            f'[proxy]\naddr = "127.0.0.1:{self.door}"\ntarget = "127.0.0.1:{target or self.application.port}"\n')

    def ask(self, visitor, *words, **more):
        return visitor.ask(self.door, *words, **more)

    def last(self, visitor):
        """The greatest key that a visitor is told."""
        status, _, body = self.ask(visitor)
        same(status, 200, f'a read: {body}')
        return int(body)

    def write(self, visitor, key):
        """Writes a row by way of the application. The reply has the node's position as a cookie."""
        status, fields, body = self.ask(visitor, body=str(key).encode())
        same((status, body), (200, b'written'), 'a write')
        return fields['Set-Cookie']


@contextlib.contextmanager
def one(mode='wal', target=None):
    """A primary with the keys 0 to 4."""
    with contextlib.ExitStack() as stack:
        site = Site(stack, target=target)
        site.node.begin()
        with contextlib.closing(in_mode(site.node.socket, mode)) as made:
            fill(made, range(FIRST))
        yield site


@contextlib.contextmanager
def two(mode):
    """The same, and a replica that is level."""
    with one(mode) as primary, contextlib.ExitStack() as stack:
        replica = Site(stack, primary)
        replica.node.begin()
        primary.node.level(replica.node)
        yield primary, replica


def own_writes(mode):
    """A write at the primary and at once a read at the replica, which a reader holds back: who has no cookie sees the old row, and who has
    one waits until the reader is out."""
    with two(mode) as (primary, replica), contextlib.closing(connect(replica.node.socket)) as reader:
        visitor, stranger = Visitor(), Visitor(keeps=False)
        for key in range(FIRST, FIRST + length(100, 200)):
            reader.execute('begin')
            rows(reader)
            primary.write(visitor, key)
            same(replica.last(stranger), key - 1, 'what a client without a cookie sees')
            out = threading.Timer(0.05, reader.execute, ('commit',))
            out.start()
            same(replica.last(visitor), key, 'the row that was just written')
            out.join()
        primary.node.level(replica.node)


def waits(mode):
    """The same for as long as a second."""
    with two(mode) as (primary, replica), contextlib.closing(connect(replica.node.socket)) as reader:
        visitor, seen = Visitor(), []
        reader.execute('begin')
        rows(reader)
        primary.write(visitor, FIRST)
        reading = threading.Thread(target=lambda: seen.append(replica.last(visitor)))
        reading.start()
        time.sleep(1)
        same(seen, [], 'what was read while the reader is inside')
        reader.execute('commit')
        reading.join()
        same(seen, [FIRST], 'what was read then')


def refused(mode):
    """Writes at a replica are not passed on; at the primary they are, with a cookie that says its position."""
    with two(mode) as (primary, replica):
        visitor = Visitor()
        for method in ('POST', 'PUT', 'PATCH', 'DELETE'):
            status, fields, body = replica.ask(visitor, body=b'9', method=method)
            same((status, fields.get('Litefs-Primary'), body), (503, 'db1', b''), f'{method} at the replica')
        same(replica.application.seen, [], 'what the application heard of it')
        same(primary.write(visitor, 9), f'__txid={primary.node.position().txid:016x}; Path=/', 'the cookie')
        same(replica.last(visitor), 9, 'the row')
        same('Set-Cookie' in replica.ask(visitor)[1], False, 'a read has no cookie')


def stopped(mode):
    """The primary is stopped before the replica has the row: who wrote it is told so, others read."""
    with two(mode) as (primary, replica):
        visitor = Visitor()
        replica.node.kill()
        primary.write(visitor, FIRST)
        with standing_still(primary.node):
            replica.node.start()
            status, fields, body = replica.ask(visitor)
            same((status, fields.get('Litefs-Primary'), body), (504, 'db1', b''), 'a read of the row')
            same(replica.last(Visitor()), FIRST - 1, 'a read without a cookie')
        primary.node.level(replica.node)
        same(replica.last(visitor), FIRST, 'the row')


def cookies():
    """Which cookies say a floor: a number that no node has comes to 504, and what is none says nothing."""
    high = '__txid=00000000ffffffff'
    with one() as site:
        for field, status in ((f'a=1; {high}', 504), (high.replace('f', 'F'), 200), (high[:-1], 200), (f'{high}0', 200), (f'x{high}', 200),
                              (f'__txid=0000000000000001; {high}', 200)):
            reply = exchanged(site.door, request('GET /', f'Cookie: {field}'))
            same(reply[:13], f'HTTP/1.1 {status} '.encode(), f'the cookie {field}')
        reply = exchanged(site.door, request('GET /', 'Cookie: a=1', f'Cookie: {high}'))
        same(reply[:13], b'HTTP/1.1 504 ', 'a second field')


def replies():
    """Replies are those of the application, byte by byte; a write's has the cookie behind its first line."""
    with one() as site:
        for line in ('GET /', 'HEAD /', 'GET /none', 'GET /unchanged', 'HEAD /unchanged', 'GET /zeros/0', 'GET /zeros/100000'):
            asked = request(line, 'Connection: close')
            same(exchanged(site.door, asked), exchanged(site.application.port, asked), f'the reply to {line}')
        asked = request('POST /back', 'Content-Length: 5', 'Connection: close', body=b'a\r\n\r\n')
        first, rest = exchanged(site.application.port, asked).split(b'\r\n', 1)
        cookie = f'\r\nSet-Cookie: __txid={site.node.position().txid:016x}; Path=/\r\n'.encode()
        same(exchanged(site.door, asked), first + cookie + rest, 'the reply to a write')


def fields():
    """What the application hears: the request as it came, without Connection and Expect, and with `Connection: close` as last."""
    with one() as site:
        exchanged(site.door, request('GET /none?a=b', 'connection: keep-alive', 'X-Two: 1', 'Expect: 100-continue', 'X-Two: 2'))
        same(site.application.seen, [('GET', '/none?a=b', [('Host', 'a'), ('X-Two', '1'), ('X-Two', '2'), ('Connection', 'close')], 0)],
             'a request')
        same(curl(*(2 * [f'http://127.0.0.1:{site.door}/none']))[0], 204204, 'two requests of a client that keeps links')
        same(len(site.application.seen), 3, 'how many came')
        same(curl('-H', 'Expect: 100-continue', '-d', 'text', f'http://127.0.0.1:{site.door}/back'), (200, b'text'), 'a body that waits')


def large():
    """Bodies and replies of 60 MiB pass, and past 64 MiB none does."""
    with one() as site:
        visitor, body = Visitor(), os.urandom(LARGE)
        same(site.ask(visitor, '/sum', body)[::2], (200, hashlib.sha256(body).hexdigest().encode()), 'a body of 60 MiB')
        holds(site.ask(visitor, '/back', body)[::2] == (200, body), 'a reply of 60 MiB')
        seen = len(site.application.seen)
        for words in (('POST /sum',), ('GET /sum',)):
            same(exchanged(site.door, request(*words, f'Content-Length: {LIMIT + 1}'))[:13], b'HTTP/1.1 413 ', 'a body past 64 MiB')
        same(len(site.application.seen), seen, 'what the application heard of it')
        same(site.ask(visitor, f'/zeros/{LIMIT}')[0], 502, 'a reply past 64 MiB')
        same(site.last(visitor), FIRST - 1, 'a read behind these')


def no_request():
    """What is not passed on: 400, and the application hears nothing of it."""
    chunks = b'5\r\nhello\r\n0\r\n\r\n'
    with one() as site:
        for text in (request('POST /', 'Transfer-Encoding: chunked', body=chunks), b'GET / HTTP/1.0\r\n\r\n', b'GET / HTTP/2.0\r\n\r\n', b'nonsense\r\n\r\n',
                     request('POST /', 'Content-Length: 1', 'Content-Length: 2', body=b'ab'), request('POST /', 'Content-Length: x'),
                     request('GET /', 'A: ' + 'a' * 8192), request('GET /', *(f'A{it}: a' for it in range(129)))):
            same(exchanged(site.door, text)[:13], b'HTTP/1.1 400 ', f'{text[:60]}')
        same(curl('-T', __file__, '-H', 'Transfer-Encoding: chunked', f'http://127.0.0.1:{site.door}/back')[0], 400, 'chunks of curl')
        same(site.application.seen, [], 'what the application heard of it')
        same(exchanged(site.door, request('GET /none'))[:13], b'HTTP/1.1 204 ', 'a request behind these')


def no_target():
    """The application is away, or answers nonsense: 502. Once it is there it is reached."""
    port = free_port()
    with one(target=port) as site:
        for method in ('GET', 'POST'):
            same(site.ask(Visitor(), method=method)[::2], (502, b''), f'{method} without an application')
        for text in (b'', b'yes', b'x' * 8193, b'HTTP/1.1 200'):
            with Saying(port, text):
                same(site.ask(Visitor())[0], 502, f'an application that says {text[:10]}')
        with Saying(port, b'HTTP/1.1 200 OK\r\n\r\nhello'):
            same(site.ask(Visitor())[::2], (200, b'hello'), 'one that says something')


def crowd(mode):
    """16 clients at once, at both: each sees what it wrote."""
    with two(mode) as (primary, replica):
        wrong = []

        def go(number):
            try:
                visitor = Visitor()
                for turn in range(length(4, 20)):
                    key = 1000 * (number + 1) + turn
                    primary.write(visitor, key)
                    holds(replica.last(visitor) >= key, 'the row that was just written')
            except Exception as error:
                wrong.append(error)
        threads = [threading.Thread(target=go, args=(it,)) for it in range(16)]
        for it in threads:
            it.start()
        for it in threads:
            it.join()
        same(wrong, [], 'what went wrong for a client')
        primary.node.level(replica.node)


run({**in_each_mode(('delete', 'wal'), own_writes=own_writes, waits=waits, stopped=stopped), **in_each_mode(('wal',), refused=refused, crowd=crowd),
     'cookies': cookies, 'replies': replies, 'fields': fields, 'large': large, 'no_request': no_request, 'no_target': no_target}, at_once=2)
