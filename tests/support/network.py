"""A network of its own for a case, by root alone, whose links hold few bytes on their way."""
import ctypes
import os
import subprocess
import threading

from .outcomes import Skipped

NEW_NETWORK = 0x40000000
FEW = '4096 4096 4096'


def narrow(call):
    """Runs the call so, in a thread: what it starts and dials is on that network."""
    if os.geteuid():
        raise Skipped('a network of its own is made by root alone')
    wrong = []

    def go():
        try:
            if ctypes.CDLL(None).unshare(NEW_NETWORK):
                raise Skipped('no network of its own can be made here')
            subprocess.run(['ip', 'link', 'set', 'lo', 'up'], check=True)
            for it in 'tcp_wmem', 'tcp_rmem':
                with open(f'/proc/sys/net/ipv4/{it}', 'w') as file:
                    file.write(FEW)
            call()
        except BaseException as one:
            wrong.append(one)

    thread = threading.Thread(target=go)
    thread.start()
    thread.join()
    if wrong:
        raise wrong[0]
