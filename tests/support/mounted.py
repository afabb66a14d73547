"""A small disk of its own, for root alone."""
import contextlib
import os
import subprocess
import tempfile

from .outcomes import Skipped


class Disk:
    def __init__(self, folder):
        self.folder = folder

    def remount(self, options):
        subprocess.run(['mount', '-o', f'remount,{options}', self.folder], check=True)


@contextlib.contextmanager
def small_disk(options):
    """A tmpfs with these options of mount, at a new folder."""
    if os.geteuid():
        raise Skipped('a small disk is mounted by root alone')
    folder = tempfile.mkdtemp(prefix='litefs-disk-')
    ran = subprocess.run(['mount', '-t', 'tmpfs', '-o', options, 'litefs-test', folder], capture_output=True, text=True)
    try:
        if ran.returncode:
            raise Skipped(f'no tmpfs can be mounted here: {ran.stderr}')
        try:
            yield Disk(folder)
        finally:
            subprocess.run(['umount', '-l', folder], check=True)
    finally:
        os.rmdir(folder)
