"""A lease service: a folder of its own with a `litefs.toml`, and the program `litefs lease` in it."""
import http.client
import json

from .running import Running

CONFIGURATION = '''[http]
addr = "127.0.0.1:{port}"
[lease]
ttl = {ttl}
'''


class Service(Running):
    """Grants leases of `ttl` milliseconds."""
    word, called = 'lease', 'lease service'

    def __init__(self, ttl=2000, starts=True):
        super().__init__()
        self.ttl = ttl
        self.configure(CONFIGURATION.format(port=self.port, ttl=ttl))
        if starts:
            self.begin()

    def responds(self):
        return self.info() is not None

    def asked(self, body, method='POST', path='/lease'):
        """The reply to this body: its status, its header fields and its bytes."""
        link = http.client.HTTPConnection('127.0.0.1', self.port, timeout=60)
        try:
            link.request(method, path, body)
            reply = link.getresponse()
            return reply.status, dict(reply.getheaders()), reply.read()
        finally:
            link.close()

    def ask(self, **members):
        """The status, and the value that the body says."""
        status, _, text = self.asked(json.dumps(members).encode())
        return status, json.loads(text)

    def acquire(self, node):
        return self.ask(op='acquire', node=f'{node:016x}', url=f'http://db{node}:20202', host=f'db{node}')

    def renew(self, node, term):
        return self.ask(op='renew', node=f'{node:016x}', term=term)

    def release(self, node, term):
        return self.ask(op='release', node=f'{node:016x}', term=term)

    def info(self):
        """The grant that stands, {} where there is none, and None where the service doesn't answer."""
        try:
            status, grant = self.ask(op='info')
        except (OSError, http.client.HTTPException, ValueError):
            return None
        return grant if status == 200 else None
