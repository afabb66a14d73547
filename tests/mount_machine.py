#!/usr/bin/python3
"""The tests of litefs-fuse without a mount: one for each rule of its machine, and a recorded conversation of the kernel and a
node. They need cargo and no network.

At most: 600 seconds.
Seen to fail: with an unlock that tells no header, and with EIO of a READ handed on (11 tests of 75)"""
import os
import subprocess

from support import holds, run
from support.mount import SOURCES, need_rust


def machine():
    need_rust()
    ran = subprocess.run(['cargo', 'test', '--release', '--offline', '--quiet'], cwd=SOURCES, capture_output=True, text=True)
    holds(ran.returncode == 0 and 'test result: ok' in ran.stdout, (ran.stdout + ran.stderr)[-900:])


def one_file_is_unsafe():
    """All of the unsafe code stands in the file of foreign functions."""
    found = []
    for folder, _, names in os.walk(os.path.join(SOURCES, 'src')):
        for name in names:
            with open(os.path.join(folder, name)) as file:
                if 'unsafe' in file.read().replace('unsafe code', ''):
                    found.append(name)
    holds(found == ['foreign.rs'], f'unsafe code in {found}')


run({'machine': machine, 'unsafe': one_file_is_unsafe})
