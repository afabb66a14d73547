"""The cluster's write permit, taken at a replica by the lock on HALT."""
import contextlib
import os

from .waiting import until
from .wire import NONE, WRITING, Link, Refused

HALT = 72
OWNER = 1


@contextlib.contextmanager
def permitted(socket, database='app'):
    """Waits for the lock by a link of its own, and gives it back at the end of the block. Other clients of the node write meanwhile."""
    with Link(socket) as link:
        file = link.lookup(f'{database}-lock')
        handle = link.open(file, os.O_RDWR)
        until(lambda: is_granted(link, file, handle), 'the lock on HALT')
        yield
        link.lock(file, handle, OWNER, NONE, HALT, HALT)


def is_granted(link, file, handle):
    try:
        link.lock(file, handle, OWNER, WRITING, HALT, HALT)
        return True
    except Refused as refused:
        if refused.errno != 11:
            raise
        return False
