"""The program running at one of its words, in a folder of its own with a `litefs.toml`."""
import contextlib
import functools
import itertools
import os
import random
import shutil
import socket
import subprocess
import tempfile
import threading

from . import places
from .outcomes import Wrong
from .waiting import until


# Blocks of ports below those that the system gives to who dials: a replica whose primary is down might get just its port.
FIRST, BLOCK, BLOCKS = 12000, 500, 40
claiming = threading.Lock()


@functools.cache
def own_ports():
    """The ports of a block, round and round, which no other script is given meanwhile: the name of a socket that ends with this
    process claims it."""
    for block in random.sample(range(BLOCKS), BLOCKS):
        claim = socket.socket(socket.AF_UNIX)
        with contextlib.suppress(OSError):
            claim.bind(f'\0litefs-ports-{block}')
            return claim, itertools.cycle(range(FIRST + block * BLOCK, FIRST + (block + 1) * BLOCK))
        claim.close()
    raise Wrong('other scripts have all blocks of ports')


def free_port():
    """A port that is free, and that this script wasn't given lately."""
    with claiming:
        _, ports = own_ports()
    for port in ports:
        with socket.socket() as tried, contextlib.suppress(OSError):
            tried.bind(('127.0.0.1', port))
            return port


class Running:
    """Ended and removed at the end of its block. `folder`: where it runs; a new temporary one where none is given. `program`: another
    build than the one under test. A class of it says the program's `word`, what messages call it, and when it `responds`."""
    word, called = '', ''

    def __init__(self, folder=None, program=None):
        self.program = program or places.program()
        self.made = folder is None
        self.folder = folder or tempfile.mkdtemp(prefix='litefs-test-')
        self.port = free_port()
        self.process = None

    def __enter__(self):
        return self

    def __exit__(self, *_):
        self.kill()
        if self.made:
            shutil.rmtree(self.folder, ignore_errors=True)

    def begin(self):
        """Starts it for the first time; nothing of it stays where it doesn't answer."""
        try:
            self.start()
        except BaseException:
            self.__exit__()
            raise

    def configure(self, text):
        with open(os.path.join(self.folder, 'litefs.toml'), 'w') as file:
            file.write(text)

    def launch(self):
        """Starts the program and waits for nothing."""
        with open(os.path.join(self.folder, 'errors'), 'ab') as errors:
            self.process = subprocess.Popen([self.program, self.word], cwd=self.folder, stdin=subprocess.DEVNULL,
                                            stdout=subprocess.DEVNULL, stderr=errors)

    def start(self):
        """Starts the program and waits until it answers."""
        self.launch()
        until(self.answers, f'the {self.called} answers')

    def answers(self):
        if self.process.poll() is not None:
            raise Wrong(f'the {self.called} ended with {self.process.returncode}: {self.errors()}')
        return self.responds()

    def kill(self):
        """Ends it at once, as kill -9 does."""
        if self.process and self.process.poll() is None:
            self.process.kill()
        if self.process:
            self.process.wait()

    def restart(self):
        self.kill()
        self.start()

    def ended(self):
        """Waits until it ends by itself, and answers its status."""
        until(lambda: self.process.poll() is not None, f'the {self.called} ends')
        return self.process.returncode

    def outcome(self):
        """Runs the program to its end, which is to come of itself: its status and what it wrote to standard error."""
        return outcome(self.program, [self.word], self.folder)

    def errors(self):
        """What it wrote to standard error, in all its runs."""
        with open(os.path.join(self.folder, 'errors')) as file:
            return file.read()


def outcome(program, words, folder=None, given=b''):
    """Runs the program to its end: its status and its standard error."""
    ran = subprocess.run([program, *words], cwd=folder, input=given, stdout=subprocess.PIPE, stderr=subprocess.PIPE, timeout=60)
    return ran.returncode, ran.stderr.decode()
