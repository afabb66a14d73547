"""What a node tells over HTTP of itself: /info, /metrics, /events."""
import contextlib
import http.client
import json
import socket
import threading

from .cases import holds, same
from .outcomes import Skipped
from .waiting import until


def got(node, path, method='GET', seconds=60):
    """The status, the header fields and the bytes of a reply."""
    link = http.client.HTTPConnection('127.0.0.1', node.port, timeout=seconds)
    try:
        until(lambda: dialed(link), 'the port is listened on')
        link.request(method, path)
        reply = link.getresponse()
        return reply.status, dict(reply.getheaders()), reply.read()
    finally:
        link.close()


def dialed(link):
    """A node that has just been started may answer at its socket before it does at its port."""
    try:
        link.connect()
        return True
    except ConnectionRefusedError:
        return False


def told(node, path, media):
    """The text of a good reply of this media type, which has a length and ends with a newline."""
    status, fields, text = got(node, path)
    same((status, fields.get('Content-Type')), (200, media), f'the reply to {path}')
    same(fields.get('Content-Length'), str(len(text)), f'the length of {path}')
    holds(text.endswith(b'\n'), f'{path} ends with a newline')
    return text.decode()


def info(node):
    text = told(node, '/info', 'application/json')
    same(text.count('\n'), 1, 'one line')
    return json.loads(text)


class Metrics:
    """What /metrics says. `kinds`: the families' kinds by name; `samples`: the values by name, of those without a label, and by name and
    label of the others."""

    def __init__(self, node):
        try:
            from prometheus_client.parser import text_string_to_metric_families
        except ImportError:
            raise Skipped('no python3-prometheus-client here')
        text = told(node, '/metrics', 'text/plain; version=0.0.4')
        self.kinds, self.samples = {}, {}
        for family in text_string_to_metric_families(text):
            name = family.name + ('_total' if family.type == 'counter' else '')
            holds(name not in self.kinds and family.documentation, f'{name} stands once, and says what it is')
            self.kinds[name] = family.type
            for it in family.samples:
                label = next(iter(it.labels.values()), None)
                self.samples[it.name if label is None else (it.name, label)] = it.value
        same(text.count('# TYPE '), len(self.kinds), 'as many kinds as names')

    def __getitem__(self, name):
        return self.samples[f'litefs_{name}']

    def labelled(self, name):
        """The values of a name by label."""
        return {key[1]: value for key, value in self.samples.items() if isinstance(key, tuple) and key[0] == f'litefs_{name}'}

    def names(self):
        """The names that a query can have."""
        return {it if isinstance(it, str) else it[0] for it in self.samples}


class Reader:
    """Reads a node's events in a thread. `lines`: those that came; `ended`: whether the node ended them. `idle`: it reads nothing but the head."""

    def __init__(self, node, idle=False):
        self.lines, self.ended = [], False
        until(lambda: got(node, '/none'), 'the port is listened on')
        self.socket = socket.socket()
        self.socket.settimeout(600)
        self.socket.connect(('127.0.0.1', node.port))
        self.socket.sendall(b'GET /events HTTP/1.1\r\nHost: h\r\n\r\n')
        self.text = self.socket.makefile('rb', buffering=512)
        head = [self.text.readline().strip() for _ in range(2)]
        while line := self.text.readline().strip():
            head.append(line)
        same(head[0].split()[1:2], [b'200'], 'the status of /events')
        holds(b'Content-Type: application/x-ndjson' in head, f'the head of /events: {head}')
        holds(not any(it.lower().startswith(b'content-length') for it in head), f'no length: {head}')
        self.thread = threading.Thread(target=self.go, daemon=True)
        if not idle:
            self.thread.start()

    def __enter__(self):
        return self

    def __exit__(self, *_):
        with contextlib.suppress(OSError):
            self.socket.shutdown(socket.SHUT_RDWR)
        if self.thread.ident:
            self.thread.join()
        self.text.close()
        self.socket.close()

    def go(self):
        try:
            for line in self.text:
                self.lines.append(json.loads(line) if line.endswith(b'\n') else line)
            self.ended = True
        except (OSError, ValueError) as wrong:
            self.lines.append(wrong)

    def of(self, kind):
        """The lines of this type, each what it says beside it."""
        return [it.get('data') for it in list(self.lines) if it['type'] == kind]

    def txids(self):
        return [int(it['txID'], 16) for it in self.of('tx')]

    def comes(self, condition, what):
        return until(lambda: condition(self), what)
