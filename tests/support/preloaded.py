"""Programs that know nothing of a node, over the VFS by LD_PRELOAD: only paths below a folder are the node's."""
import contextlib
import os
import shutil
import subprocess
import tempfile

from . import places
from .cases import Skipped

LIMIT = 300


def needs(program):
    """The path of a program, or the case is skipped."""
    found = shutil.which(program, path='/usr/bin:/bin:/usr/local/bin')
    if not found:
        raise Skipped(f'no {program} here')
    return found


@contextlib.contextmanager
def scratch():
    """A new folder."""
    folder = tempfile.mkdtemp(prefix='litefs-vfs-')
    try:
        yield folder
    finally:
        shutil.rmtree(folder, ignore_errors=True)


def preloaded(socket, folder, **more):
    """The environment in which the database of a node is FOLDER/NAME."""
    return {**os.environ, 'LD_PRELOAD': places.vfs(), 'LITEFS_DIR': folder, 'LITEFS_SOCKET': socket, **more}


def output(words, environment=None, given=None):
    """Runs a program to its end: its status, and what it wrote to the two outputs."""
    ran = subprocess.run(words, env=environment, input=given, capture_output=True, text=True, timeout=LIMIT)
    return ran.returncode, ran.stdout, ran.stderr
