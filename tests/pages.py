#!/usr/bin/python3
"""The commands of the pages, as they stand there: OPERATING, TROUBLESHOOTING and CLIENTS, each on a machine of its own with the
package in /root, and COMMANDS and CONTRIBUTING on one with the repository in /root/litefs.

A block fenced as sh is run, and has to end with status 0. In a block fenced as console each line behind `$ ` is run, and what it
writes has to be what stands below it, where `..` stands for anything; the block is run again until it is so, so it changes nothing.
`sh mount` and `console mount` are left out where nothing can be mounted, `sh etcd` and `console etcd` where there is no etcd. In CONTRIBUTING's table each row says `run` or `proves`:
the commands of the first have to end with status 0, and the second stands only by what proves, builds, or is the whole of ./check.

At most: 900 seconds.
Seen to fail: an output on the page that isn't so (200 for 404); a failover on the page that leaves the replica a replica; a block
that no fence marks; in the table a row of what can be run that says `proves`, and a word of rt in the text that the table hasn't."""
import contextlib
import glob
import os
import shutil
import subprocess
import sys
import tempfile
import time

from support import Skipped, places, skip_all
from support.machine import isolated, put
from support.mount import why_no_mount
from support.page import PAGES, commands, fits, overlooked, parts, steps, takes_long

LIMIT, PATIENCE = 200, 60
NEEDED = ('dpkg', 'sqlite3', 'curl', 'ip', 'ss', 'systemd-sysusers', 'setpriv')
HOME, CLONE = '/root', '/root/litefs'
MACHINE = {'PATH': '/usr/local/bin:/usr/bin:/bin:/usr/sbin:/sbin', 'HOME': HOME, 'LANG': 'C.UTF-8'}
NOT_COPIED = shutil.ignore_patterns('.git', 'out', 'target', '__pycache__')


def shell(root, text, *options):
    """Runs commands in the machine: their status and what they wrote. What they leave running goes with the machine."""
    folder = CLONE if os.path.exists(root + CLONE) else HOME
    words = ['timeout', '-k', '1', str(LIMIT), 'chroot', root, 'bash', *options, '-c', f'cd {folder}\n{text}']
    with tempfile.TemporaryFile('w+') as said:
        ran = subprocess.run(words, stdin=subprocess.DEVNULL, stdout=said, stderr=subprocess.STDOUT, env=MACHINE)
        said.seek(0)
        return ran.returncode, said.read()


def ends_well(root, text):
    status, said = shell(root, text, '-e', '-o', 'pipefail')
    return None if status == 0 else f'status {status}: {said}'


def writes_that(root, body):
    end = time.monotonic() + PATIENCE
    while True:
        seen = [(wanted, shell(root, command)[1]) for command, wanted in steps(body)]
        wrong = [f'{got!r} where {wanted!r} is written' for wanted, got in seen if not fits(got, wanted)]
        if not wrong or time.monotonic() > end:
            return '; '.join(wrong) or None
        time.sleep(0.5)


def is_run(row):
    return row.endswith(' run |')


def row_holds(root, row):
    if is_run(row):
        return next(filter(None, (ends_well(root, it) for it in commands(row))), None)
    short = [it for it in commands(row) if not takes_long(it)]
    return f'the page leaves out what can be run: {short}' if short else None


HOLDS = {'sh': ends_well, 'console': writes_that, 'row': row_holds}


def left_out(root, part, no_mount):
    """Why a part can't be run here."""
    if part.kind.endswith(' mount') and no_mount:
        return no_mount
    if part.kind.endswith(' etcd') and not all(shutil.which(it, path=MACHINE['PATH']) for it in ('etcd', 'etcdctl')):
        return 'etcd-server and etcd-client are not installed'
    if part.kind == 'row' and is_run(part.text) and any('rt' in it.split() for it in commands(part.text)) and shell(root, 'rt version')[0]:
        return 'no rt in the machine'
    return None


def inside(page, package, no_mount, root):
    """Runs a page in the machine, a line for each part, and answers 1 where one failed. Behind that nothing of the page is run."""
    furnish(root, page, package)
    failed = None
    for part in parts(page):
        if reason := left_out(root, part, no_mount):
            print(f'skipped: {part.name}: {reason}', flush=True)
            continue
        why = f'not run after {failed}' if failed else HOLDS[part.kind.split()[0]](root, part.text)
        failed = failed or (why and part.name)
        print(f'failed: {part.name}: {" / ".join(why.strip().splitlines())[-600:]}' if why else f'passed: {part.name}', flush=True)
    return 1 if failed else 0


def furnish(root, page, package):
    with contextlib.suppress(FileNotFoundError):
        os.remove(f'{root}/var/lib/man-db/auto-update')  # else each install makes the index of all man pages anew
    put(root, package, f'{HOME}/{os.path.basename(package)}', 0o644)
    here = os.path.join(places.TESTS, 'support/systemctl')
    put(root, here, '/usr/bin/systemctl')
    put(root, here, '/usr/bin/journalctl')
    if page in ('COMMANDS', 'CONTRIBUTING'):
        shutil.copytree(places.ROOT, root + CLONE, symlinks=True, ignore=NOT_COPIED)
        put(root, places.elf(), f'{CLONE}/crates/litefs/out/litefs')


def packed(folder):
    """The package of the program under test."""
    subprocess.run([f'{places.ROOT}/tools/package', folder], check=True, stdout=subprocess.DEVNULL, env={**os.environ, 'LITEFS': places.elf()})
    return glob.glob(f'{folder}/*.deb')[0]


def whole(page):
    """That nothing which looks like a command is overlooked."""
    found = overlooked(page)
    print(f'failed: {page.lower()}-whole: not run: {found}' if found else f'passed: {page.lower()}-whole', flush=True)
    return 1 if found else 0


def main():
    lacking = [it for it in NEEDED if not shutil.which(it, path=MACHINE['PATH'])]
    if lacking:
        skip_all(f'no {", ".join(lacking)} here')
    with tempfile.TemporaryDirectory(prefix='litefs-pages-') as folder:
        try:
            no_mount, _ = why_no_mount(), places.vfs()
            package = packed(folder)
            pages = sys.argv[1:] or PAGES
            statuses = [isolated([sys.executable, os.path.abspath(__file__), '--inside', it, package, no_mount]) for it in pages]
        except Skipped as skipped:
            skip_all(str(skipped))
    sys.exit(max([*statuses, *map(whole, pages)]))


if sys.argv[1:2] == ['--inside']:
    sys.exit(inside(*sys.argv[2:]))
else:
    main()
