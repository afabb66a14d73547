"""A web application over a node's database, and its visitors."""
import contextlib
import hashlib
import http.client
import http.cookiejar
import http.server
import socket
import socketserver
import urllib.error
import urllib.request

from .listening import Listening
from .sqlite import connect

LOCAL = '127.0.0.1'


class Answering(http.server.BaseHTTPRequestHandler):
    """Replies have no date, so that two of them can be compared."""
    protocol_version = 'HTTP/1.1'

    def log_message(self, *_):
        pass

    def do_GET(self):
        self.note(b'')
        if self.path == '/none':
            return self.reply(204)
        if self.path == '/unchanged':
            return self.reply(304)
        if self.path.startswith('/zeros/'):
            return self.reply(200, bytes(int(self.path[7:])))
        self.reply(200, str(self.asked('select max(a) from t')).encode())

    do_HEAD = do_GET

    def do_POST(self):
        body = self.rfile.read(int(self.headers.get('Content-Length', 0)))
        self.note(body)
        if self.path == '/sum':
            return self.reply(200, hashlib.sha256(body).hexdigest().encode())
        if self.path == '/back':
            return self.reply(200, body)
        self.asked('insert into t values(?,?,?)', (int(body), 'v', 'w'))
        self.reply(200, b'written')

    do_PUT = do_PATCH = do_DELETE = do_POST

    def asked(self, *statement):
        """The first value of the first row, none without one."""
        with contextlib.closing(connect(self.server.node.socket)) as connection:
            return next(iter(connection.execute(*statement).fetchall()), (None,))[0]

    def note(self, body):
        self.server.seen.append((self.command, self.path, self.headers.items(), len(body)))

    def reply(self, status, body=b''):
        self.send_response_only(status)
        if status == 200:
            self.send_header('Content-Length', str(len(body)))
        self.end_headers()
        if self.command != 'HEAD':
            self.wfile.write(body)


class Application(Listening):
    """Answers over the database of `node`, which may be said later. `seen`: of each request its method, path, fields and body's length."""
    request_queue_size = 64

    def __init__(self, node=None):
        self.node, self.seen = node, []
        super().__init__(Answering)

    def handle_error(self, *_):
        """A client that went away is none of the script's."""


class Repeating(socketserver.BaseRequestHandler):
    def handle(self):
        self.request.recv(65536)
        self.request.sendall(self.server.text)


class Saying(Listening):
    """Says this to whoever asks at its port."""

    def __init__(self, port, text):
        self.text = text
        super().__init__(Repeating, port)


class Visitor:
    """A client with a cookie jar, or without one."""

    def __init__(self, keeps=True):
        self.jar = http.cookiejar.CookieJar()
        handlers = [urllib.request.ProxyHandler({})] + ([urllib.request.HTTPCookieProcessor(self.jar)] if keeps else [])
        self.opener = urllib.request.build_opener(*handlers)

    def ask(self, port, path='/', body=None, method=None):
        """The status, the header fields and the body of the reply."""
        asked = urllib.request.Request(f'http://{LOCAL}:{port}{path}', body, method=method)
        try:
            with self.opener.open(asked, timeout=300) as reply:
                return reply.status, dict(reply.getheaders()), reply.read()
        except urllib.error.HTTPError as reply:
            with reply:
                return reply.code, dict(reply.headers.items()), reply.read()


def exchanged(port, text):
    """All that comes back for these bytes, to the end of the link. Not all of them may be taken."""
    with socket.create_connection((LOCAL, port), timeout=300) as link:
        with contextlib.suppress(ConnectionError):
            link.sendall(text)
        parts = []
        with contextlib.suppress(ConnectionResetError):
            while part := link.recv(1 << 20):
                parts.append(part)
        return b''.join(parts)


def request(line, *fields, body=b''):
    """The bytes of a request."""
    return '\r\n'.join((f'{line} HTTP/1.1', 'Host: a', *fields, '', '')).encode() + body
