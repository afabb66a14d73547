#!/usr/bin/python3
"""Who mounts: an ordinary user by fusermount3, and root of a user namespace; and other users, who come in only with
allow_other and then as the files' modes say.

At most: 600 seconds.
Seen to fail: with mount(2) for an ordinary user (`ordinary_user`: Operation not permitted); without a cover or closed modes
(`ordinary_user`, `user_namespace`: a folder can be made there); with allow_other left out of the mount's options (`others`); with the drop-in as it was, which left the unit's group as it is (`drop_in`: Permission denied)"""
import configparser
import grp
import os
import pwd
import shutil
import stat
import subprocess
import tempfile

from support import ROOT, Node, Skipped, holds, run, same
from support.mount import Mount, fuse_program, need_mount

NOBODY = 65534
SCRIPT = '''
import os, sqlite3, subprocess, sys, time
program, socket, folder = sys.argv[1:4]
def started():
    mount = subprocess.Popen([program, socket, folder, '-o', 'name=app', '--until-stdin-ends'], stdin=subprocess.PIPE, stderr=subprocess.PIPE, text=True)
    said = mount.stderr.readline()
    if 'mounted' not in said: print('no mount:', said); sys.exit()
    return mount, said
def left():
    try:
        os.mkdir(folder + '/new')
        os.rmdir(folder + '/new')
        return 'open'
    except OSError as error: return error.strerror
def shows_app():
    try: return 'app' in os.listdir(folder)
    except OSError: return True
mount, said = started()
c = sqlite3.connect(folder + '/app', isolation_level=None, timeout=60)
for mode in ('wal', 'delete'):
    c.execute('pragma journal_mode=' + mode).fetchall()
    c.execute('create table in_%s(a)' % mode)
    c.execute('insert into in_%s values(1)' % mode)
print(said.strip().split()[-1], os.stat(folder + '/app').st_uid == os.getuid(), c.execute('select count(*) from in_wal').fetchall())
c.close()
mount.stdin.close()
print(mount.wait(60), os.listdir(folder), left())
mount, said = started()
mount.terminate()
print(mount.wait(60), os.listdir(folder), left())
mount, said = started()
mount.kill()
mount.wait()
until = time.monotonic() + 20
while shows_app() and time.monotonic() < until: time.sleep(0.01)
print(left())
started()[0].terminate()
'''
WELL = "notify True [(1,)]\n0 [] {closed}\n0 [] open\n{closed}\n"


AS_NOBODY = ['setpriv', f'--reuid={NOBODY}', f'--regid={NOBODY}', '--clear-groups']
# root's /dev/fuse may be closed to others: a mount namespace gets an open one in its place
WITH_DEVICE = 'mknod -m 666 "$0" c 10 229 && mount --bind "$0" /dev/fuse && exec "$@"'


def as_nobody():
    os.setgid(NOBODY)
    os.setuid(NOBODY)


def tried(node, start):
    """Runs the script as an ordinary user, with the node's socket open to all, in a folder of that user."""
    place = tempfile.mkdtemp(prefix='litefs-mount-user-')
    try:
        program = shutil.copy(fuse_program(), place)
        folder = os.path.join(place, 'folder')
        os.mkdir(folder)
        for path in (place, program, node.folder):
            os.chmod(path, 0o755)
        os.chmod(node.socket, 0o666)
        command = [*start, '/usr/bin/python3', '-c', SCRIPT, program, node.socket, folder]
        if os.geteuid() == 0:
            os.chown(folder, NOBODY, NOBODY)
            command = ['unshare', '-m', 'sh', '-c', WITH_DEVICE, os.path.join(place, 'fuse'), *AS_NOBODY, *command]
        elif not os.stat('/dev/fuse').st_mode & stat.S_IWOTH:
            raise Skipped('/dev/fuse is not open to all users here')
        ran = subprocess.run(command, capture_output=True, text=True, timeout=110)
        if any(word in ran.stderr for word in ('unshare', 'mknod', 'setpriv', 'mount:')):
            raise Skipped(ran.stderr)
        return ran.stdout + ran.stderr
    finally:
        shutil.rmtree(place)


def ordinary_user():
    helper = shutil.which('fusermount3')
    if not helper or not os.stat(helper).st_mode & stat.S_ISUID:
        raise Skipped('no fusermount3 here, or none that is set-user-ID root')
    with Node() as node:
        same(tried(node, []), WELL.format(closed='Permission denied'), 'a mount of an ordinary user')


def user_namespace():
    with Node() as node:
        same(tried(node, ['unshare', '-Urm']), WELL.format(closed='Read-only file system'), "a mount in a user's namespace")


def others():
    if os.geteuid():
        raise Skipped('only root becomes another user')
    for options, wanted in (([], 'nothing'), (['allow_other'], 'reads'), (['allow_other', f'uid={NOBODY}'], 'reads writes')):
        with Node() as node, Mount(node, None, options) as mount:
            made = mount.in_mode('delete')
            made.close()
            code = '''
def attempt(flags, word):
    try: os.close(os.open(path, flags)); return [word]
    except OSError: return []
said(' '.join(attempt(os.O_RDONLY, 'reads') + attempt(os.O_RDWR, 'writes')) or 'nothing')
'''
            client = mount.client(code, preexec_fn=as_nobody)
            same(client.communicate(timeout=60)[0], wanted, f'what another user may with {options}')


def drop_in():
    """With the user and the group that packaging/mount.conf has the node run by, root's shell reaches the mount."""
    if os.geteuid():
        raise Skipped('only root becomes another user')
    unit = configparser.ConfigParser(strict=False, interpolation=None)
    for name in 'litefs@.service', 'mount.conf':
        unit.read(f'{ROOT}/packaging/{name}')
    user, group = unit['Service']['User'], unit['Service']['Group']
    numbers = [pwd.getpwnam(user).pw_uid, grp.getgrnam(group).gr_gid if group != 'litefs' else NOBODY]
    with Node() as node:
        folder = os.path.join(node.folder, 'mounted')
        os.mkdir(folder)
        words = ['setpriv', f'--reuid={numbers[0]}', f'--regid={numbers[1]}', '--clear-groups', fuse_program(), node.socket, folder, '-o', 'name=app',
                 '--until-stdin-ends']
        with subprocess.Popen(words, stdin=subprocess.PIPE, stderr=subprocess.PIPE, text=True) as mount:
            holds('mounted' in mount.stderr.readline(), 'it is mounted')
            same(subprocess.run(['ls', folder], capture_output=True, text=True, timeout=60).stderr, '', 'what ls complains of')
            mount.terminate()
            mount.wait(60)


need_mount()
run({'ordinary_user': ordinary_user, 'user_namespace': user_namespace, 'others': others, 'drop_in': drop_in})
