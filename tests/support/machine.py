"""A machine of its own for a test, by root alone: this one's files, of which it changes a copy in memory, its own network and processes."""
import os
import shutil
import subprocess
import tempfile

from .outcomes import Skipped

ISOLATED = ('unshare', '--mount', '--net', '--pid', '--fork', '--kill-child')
MAKE = '''set -e
mount -t tmpfs litefs-machine "$1"
mkdir "$1/upper" "$1/work" "$1/root"
mount -t overlay overlay -o "lowerdir=/,upperdir=$1/upper,workdir=$1/work" "$1/root"
mount --rbind /dev "$1/root/dev"
mount -t proc proc "$1/root/proc"
mount -t tmpfs tmp "$1/root/tmp"
mount -t tmpfs run "$1/root/run"
if command -v ip >/dev/null; then ip link set lo up; fi
exec "$@"
'''


def isolated(words):
    """Runs the words in a machine; they get its root's folder as their last word. Answers their status."""
    if os.geteuid():
        raise Skipped('a machine of its own is made by root alone')
    folder = tempfile.mkdtemp(prefix='litefs-machine-')
    try:
        can = subprocess.run([*ISOLATED, 'sh', '-c', MAKE.replace('exec "$@"', ''), 'sh', folder], capture_output=True, text=True)
        if can.returncode:
            raise Skipped(f'no machine can be made here: {can.stderr}')
        make = MAKE.replace('exec "$@"', 'shift; exec "$@"')
        return subprocess.run([*ISOLATED, 'sh', '-c', make, 'sh', folder, *words, f'{folder}/root']).returncode
    finally:
        shutil.rmtree(folder, ignore_errors=True)


def put(root, file, path, mode=0o755):
    """Puts a file into the machine."""
    to = root + path
    os.makedirs(os.path.dirname(to), exist_ok=True)
    if os.path.lexists(to):
        os.remove(to)
    shutil.copyfile(file, to)
    os.chmod(to, mode)
