#!/usr/bin/python3
"""A lease service, by itself: terms granted, refused, renewed and given back, bodies and links that ask nothing, and a wait of a
lease's time after each start. tests/failover.py has the nodes that ask one.

At most: 600 seconds.
Seen to fail: a stand-in for the service that listens at once after its start: a second node is granted a term while the first one's lasts.
A service on whose links a read waits for ever: a client that says nothing holds up the next."""
import contextlib
import socket
import time
from re import fullmatch

from support import Service, Skipped, holds, run, same, until

HELD, LATE, UNKNOWN = 'Held', 'Late', 'Unknown'
HEAD = b'POST /lease HTTP/1.1\r\nHost: h\r\nContent-Length: %d\r\n\r\n'
# what a client may send that asks nothing, and the status of the reply; None where there is none
NONSENSE = {
    b'': None,
    b'\x00\xff' * 3000: None,
    b'SSH-2.0-OpenSSH_9.6\r\n\r\n': None,
    b'\x16\x03\x01\x02\x00\x01\x00\x01\xfc\x03\x03' + bytes(500): None,
    b'POST /lease HTTP/1.1\r\nContent-Length: 5\r\nContent-Length: 6\r\n\r\n{"op"': None,
    b'POST /lease HTTP/1.1\r\nTransfer-Encoding: chunked\r\n\r\n0\r\n\r\n': None,
    HEAD % 13 + b'{"op":"in': None,
    HEAD % 2 + b'{}': 400,
    HEAD % 12 + b'{"op":"info"': 400,
    HEAD % 15 + b'{"op":"inform"}': 400,
    HEAD % 3 + b'\xff\xfe\xfd': 400,
    HEAD % 20000 + b'[' * 20000: 400,
    HEAD % 65537 + b' ' * 65537: 413,
    HEAD % 9000000000: 413,
    b'GET / HTTP/1.1\r\nHost: h\r\n\r\n': 404,
    b'POST /stream HTTP/1.1\r\nHost: h\r\nContent-Length: 0\r\n\r\n': 404,
    b'DELETE /lease HTTP/1.1\r\nHost: h\r\n\r\n': 404,
}


def terms():
    with Service(ttl=10000) as service:
        same(service.info(), {}, 'before any grant')
        status, granted = service.acquire(1)
        same((status, granted), (200, {'host': 'db1', 'term': 1, 'ttl': 10000, 'url': 'http://db1:20202'}), 'the first grant')
        told = service.info()
        holds(0 < told.pop('ttl') <= 10000, 'the grant lasts on')
        same(told, {'host': 'db1', 'term': 1, 'url': 'http://db1:20202'}, 'who is primary')
        held = refused(service.acquire(2), HELD)
        holds(held > 0, 'it says until when')
        same(service.renew(1, 1), (200, {'ttl': 10000}), 'a renewal')
        holds(refused(service.acquire(2), HELD) >= held, 'it lasts as long then, or longer')
        same(service.acquire(1)[1]['term'], 1, 'the term of a holder that asks again')
        same(refused(service.renew(2, 1), UNKNOWN), 0, 'a term of another node')
        same(refused(service.renew(1, 2), UNKNOWN), 0, 'a term that was never granted')
        same(service.release(1, 1), (200, {}), 'a term given back')
        same(service.info(), {}, 'after that')
        ended = refused(service.renew(1, 1), LATE)
        same(refused(service.release(1, 1), LATE), ended, 'a term given back twice')
        same(service.acquire(2)[1]['term'], 2, 'the next term')
        same(service.errors(), '', 'standard error')


def refused(reply, name):
    """The end that a refusal of this name says."""
    status, why = reply
    same((status, why.get('error')), (409, name), 'a refusal')
    return why['until']


def texts():
    """Byte by byte."""
    with Service(ttl=10000) as service:
        body = b'{"op":"acquire","node":"0000000000000001","url":"http://db1:20202","host":"db1"}'
        for text, wanted in ((b'{"op":"info"}', b'{}'),
                             (body, b'{"host":"db1","term":1,"ttl":10000,"url":"http://db1:20202"}'),
                             (b' { "term" : 1, "op" : "renew", "node" : "0000000000000001" } ', b'{"ttl":10000}'),
                             (b'{"op":"renew","node":"0000000000000002","term":1}', b'{"error":"Unknown","until":0}')):
            status, fields, reply = service.asked(text)
            same((status, reply), (409 if b'error' in wanted else 200, wanted), f'the reply to {text}')
            same((fields['Connection'], fields['Content-Length']), ('close', str(len(wanted))), 'its head')


def ends():
    """A grant that isn't renewed ends; one that is renewed goes on for longer than it would last."""
    with Service() as service:
        begun = time.monotonic()
        service.acquire(1)
        while time.monotonic() < begun + 2 * service.ttl / 1000:
            status, _ = service.renew(1, 1)
            if status != 200:
                raise Skipped('this machine stood still for longer than the lease')
        until(lambda: service.acquire(2)[0] == 200, 'the grant ends')
        same(service.info()['term'], 2, 'the term then')


def nonsense():
    with Service(ttl=10000) as service:
        for text, status in NONSENSE.items():
            before = service.acquire(1)[1]
            same(answered(service.port, text), status, f'the reply to {text[:60]}')
            same(service.info().get('term'), before['term'], f'the grant behind {text[:60]}')
        same(service.errors(), '', 'standard error')


def answered(port, text):
    """The status of the reply to these bytes, None where the link is closed without one."""
    with socket.create_connection(('127.0.0.1', port), timeout=60) as link:
        with contextlib.suppress(OSError):
            link.sendall(text)
            link.shutdown(socket.SHUT_WR)
        with contextlib.suppress(ConnectionError):
            line = link.makefile('rb').readline()
            return int(line.split()[1]) if line else None


def silence():
    """Clients that say nothing, or half of something, and stay: another one is answered all the same."""
    with Service() as service, contextlib.ExitStack() as stack:
        for text in (b'', b'POST /lease HTTP/1.1\r\n', HEAD % 13 + b'{"op"'):
            link = stack.enter_context(socket.create_connection(('127.0.0.1', service.port)))
            link.sendall(text)
        same(service.info(), {}, 'the reply to another')


def waits():
    """A service that is started anew knows nothing of the grants before: it answers nobody while one of them may last."""
    with Service(ttl=3000) as service:
        before = time.monotonic()
        service.acquire(1)
        for node in (2, 3):
            service.kill()
            service.start()
            asked = time.monotonic()
            same(service.acquire(node)[0], 200, 'a grant after the start')
            holds(time.monotonic() >= before + service.ttl / 1000, 'the grant before has ended')
            before = asked


def other_keys():
    """The configuration of a node is one of a service too."""
    with Service(starts=False) as service:
        service.configure('database = "app"\n[fuse]\nlisten = "app.sock"\n[data]\nretention-files = 5\n'
                          f'[http]\naddr = "127.0.0.1:{service.port}"\n'
                          '[lease]\ntype = "service"\ncandidate = true\nadvertise-url = "http://h:1"\nhostname = "h"\n'
                          'service-url = "http://h:2"\nttl = 1\n')
        service.start()
        same(service.acquire(1)[1]['ttl'], 1, 'how long a grant lasts')


def refusals():
    for text in ('[lease]\nttl = 0\n', '[lease]\nttl = 86400001\n', '[lease]\nttl = "1"\n', '[lease]\ntimeout = 1\n',
                 'database = "a/b"\n', 'http.addr = "nowhere"\n', 'database'):
        with Service(starts=False) as service:
            service.configure(text)
            status, said = service.outcome()
            same(status, 3, f'the status with {text!r}')
            holds(fullmatch(r'litefs: litefs\.toml(:1|:2)?: .*wanted .+\nlitefs: input refused: Config\n', said), f'with {text!r}: {said!r}')
    with Service() as service:
        same(service.outcome(), (7, f'litefs: cannot listen on 127.0.0.1:{service.port}: address in use, errno 098\nlitefs: network failed\n'),
             'a second one at its port')
        same(service.info(), {}, 'the first one')


CASES = (terms, texts, ends, nonsense, silence, waits, other_keys, refusals)
run({call.__name__: call for call in CASES}, at_once=4)
