"""Waits are for a condition. Their limit is many times what they take: the machine may be small and busy."""
import time

LIMIT = 120


class Late(Exception):
    """A condition that did not come within its limit."""


def until(condition, what, limit=LIMIT):
    """Waits until the call answers something true, and answers that."""
    end = time.monotonic() + limit
    while True:
        answer = condition()
        if answer:
            return answer
        if time.monotonic() > end:
            raise Late(f'{what}: not within {limit} seconds')
        time.sleep(0.02)
