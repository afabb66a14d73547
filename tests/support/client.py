"""A client process of its own."""
import os
import subprocess
import sys

from . import places

PRELUDE = '''import os, sqlite3, sys, time
sys.path.insert(0, {tests!r})
from support import connect, in_mode, seen_by
def said(text): os.write(1, text.encode())
socket = {socket!r}
c = connect(socket)
'''


class Client:
    """Runs Python over a node's socket. The code sees `c`, a connection, and `said(text)`, which writes at once."""

    def __init__(self, socket, code, environment=None):
        before = PRELUDE.format(tests=places.TESTS, socket=socket)
        self.process = subprocess.Popen([sys.executable, '-c', before + code], stdout=subprocess.PIPE,
                                        stderr=subprocess.PIPE, text=True,
                                        env={**os.environ, 'LITEFS_VFS': places.vfs(), **(environment or {})})

    def ended(self, limit=300):
        """Waits for its end: its status (below 0: the signal that ended it), and what it wrote to the two outputs."""
        try:
            out, errors = self.process.communicate(timeout=limit)
        finally:
            self.kill()
        return self.process.returncode, out, errors

    def kill(self):
        if self.process.poll() is None:
            self.process.kill()
            self.process.wait()
