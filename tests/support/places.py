"""Where the program, the VFS and the repository's files are."""
import functools
import glob
import hashlib
import os
import shutil
import subprocess
import tempfile

from .outcomes import Skipped

TESTS = os.path.dirname(os.path.dirname(os.path.abspath(__file__)))
ROOT = os.path.dirname(TESTS)
VFS = os.path.join(ROOT, 'clients/litefs-vfs')
LIMIT = 600


def program():
    """The node's program: the environment's LITEFS, or the one that `rt ci` and `rt run` leave."""
    given = os.environ.get('LITEFS') or os.path.join(ROOT, 'crates/litefs/out/litefs')
    if not os.access(given, os.X_OK):
        raise FileNotFoundError(f'no program at {given}: set LITEFS')
    return os.path.abspath(given)


def elf():
    """The same as one file that can be packed and copied. LITEFS_ELF names it where LITEFS is a script."""
    given = os.environ.get('LITEFS_ELF') or program()
    with open(given, 'rb') as file:
        if file.read(4) != b'\x7fELF':
            raise Skipped(f'{given} is a script, which can\'t be packed: set LITEFS_ELF')
    return given


def kept():
    """A folder for what is built once on this machine."""
    folder = os.path.join(tempfile.gettempdir(), f'litefs-tests-{os.getuid()}')
    os.makedirs(folder, mode=0o700, exist_ok=True)
    return folder


@functools.cache
def vfs():
    """The VFS of SQLite that speaks to a node's socket: LITEFS_VFS, or what its build script makes of its sources."""
    given = os.environ.get('LITEFS_VFS')
    return os.path.abspath(given) if given else built_vfs()


def built_vfs():
    if not os.path.exists(f'{VFS}/build.sh'):
        raise FileNotFoundError(f'no VFS in {VFS}: set LITEFS_VFS')
    need_compiler()
    made = os.path.join(kept(), f'litefs-vfs-{sum_of_vfs()}')
    if not os.path.exists(made):
        room = tempfile.mkdtemp(dir=kept())
        subprocess.run([f'{VFS}/build.sh', room], check=True, stdout=subprocess.DEVNULL, timeout=LIMIT)
        try:
            os.rename(room, made)
        except OSError:
            shutil.rmtree(room)
    return os.path.join(made, 'litefs-vfs.so')


def need_compiler():
    """Skips where there is not what the VFS is built with."""
    if not shutil.which('gcc') or not all(map(os.path.exists, ('/usr/include/stdio.h', '/usr/include/sqlite3ext.h'))):
        raise Skipped('the VFS needs gcc, libc6-dev and libsqlite3-dev')


def sum_of_vfs():
    found = hashlib.sha256()
    for name in sorted(glob.glob(f'{VFS}/*')):
        if os.path.isfile(name):
            with open(name, 'rb') as file:
                found.update(name.encode() + file.read())
    return found.hexdigest()[:16]
