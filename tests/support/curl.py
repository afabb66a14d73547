"""Requests over HTTP by curl."""
import os
import subprocess

from .cases import same
from .preloaded import scratch


def curl(*words):
    """The status and the body of the reply to what curl sends."""
    with scratch() as folder:
        to = os.path.join(folder, 'body')
        ran = subprocess.run(['curl', '-sS', '-o', to, '-w', '%{http_code}', *words], stdout=subprocess.PIPE, stderr=subprocess.PIPE, timeout=300)
        same((ran.returncode, ran.stderr), (0, b''), f'curl {" ".join(words)[:100]}')
        return int(ran.stdout), contents(to)


def contents(path):
    """Of a reply without bytes curl makes no file."""
    if not os.path.exists(path):
        return b''
    with open(path, 'rb') as file:
        return file.read()
