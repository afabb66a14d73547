#!/usr/bin/python3
"""The package: made by tools/package, installed into a clean root with its dependencies checked, two nodes started by the
lines of its unit, of which the one follows the other, and removed and purged, which leaves configurations and data.

At most: 600 seconds.
Seen to fail: a dependency on a later C library; a key of the unit misspelled; another word behind ExecStart; a man page with a macro that
there isn't; a key of the example misspelled; a postrm that removes the data: each fails its case."""
import configparser
import functools
import os
import shutil
import subprocess
import tempfile

from support import Node, Skipped, configuration, fill, holds, in_mode, outcome, places, read, run, same, seen_by, until

NEEDED = ('libc6', 'libgcc-s1', 'dpkg')
PAGES = {'litefs.1': 'LITEFS(1)', 'litefs.toml.5': 'LITEFS.TOML(5)'}
UNITS = ('litefs@', 'litefs-lease@')
WANTED = ('usr/bin/litefs', *(f'usr/lib/systemd/system/{it}.service' for it in UNITS), 'usr/lib/sysusers.d/litefs.conf',
          'usr/share/man/man1/litefs.1.gz', 'usr/share/man/man5/litefs.toml.5.gz', 'usr/share/doc/litefs/examples/litefs.toml', 'usr/share/doc/litefs/examples/mount.conf',
          'usr/share/doc/litefs/examples/alerts.yml', 'usr/share/doc/litefs/examples/dashboard.json',
          'usr/share/doc/litefs/OPERATING.md',
          'usr/share/doc/litefs/TROUBLESHOOTING.md', 'usr/share/doc/litefs/CHANGELOG.md')
CLIENTS = {'usr/bin/litefs-fuse': 'clients/litefs-fuse/target/release/litefs-fuse', 'usr/lib/litefs/litefs-vfs.so': 'clients/litefs-vfs/build.sh'}
made = tempfile.TemporaryDirectory(prefix='litefs-package-')


@functools.cache
def built():
    """The paths of the package and of the tar."""
    if not shutil.which('dpkg-deb'):
        raise Skipped('no dpkg here')
    said = subprocess.run([f'{places.ROOT}/tools/package', made.name], check=True, stdout=subprocess.PIPE, text=True,
                          env={**os.environ, 'LITEFS': places.elf()})
    package, archive = said.stdout.split()
    return package, archive


class Root:
    """A root in which nothing is installed but, by name, what the package needs and this machine has."""

    def __enter__(self):
        if os.geteuid():
            raise Skipped('a package is installed by root alone')
        self.folder = tempfile.mkdtemp(prefix='litefs-root-')
        admin = os.path.join(self.folder, 'var/lib/dpkg')
        os.makedirs(f'{admin}/info')
        os.makedirs(f'{admin}/updates')
        known = subprocess.run(['dpkg-query', '-s', *NEEDED], check=True, stdout=subprocess.PIPE, text=True).stdout
        with open(f'{admin}/status', 'w') as file:
            file.write(known)
        return self

    def __exit__(self, *_):
        shutil.rmtree(self.folder, ignore_errors=True)

    def dpkg(self, *words):
        ran = subprocess.run(['dpkg', f'--root={self.folder}', '--force-script-chrootless', *words], capture_output=True, text=True)
        same(ran.returncode, 0, f'dpkg {words[0]}: {ran.stderr}')

    def path(self, name):
        return os.path.join(self.folder, name.lstrip('/'))

    def unit(self):
        """The lines of the unit's section Service, with %i as the instance app."""
        text = configparser.RawConfigParser(strict=False)
        text.optionxform = str
        text.read(self.path('usr/lib/systemd/system/litefs@.service'))
        return {key: value.replace('%i', 'app') for key, value in text['Service'].items()}


def started(root, name, following=None):
    """A node of the package: a machine's state folder, made and started by the unit's lines."""
    unit = root.unit()
    state = root.path(f"{os.path.dirname(unit['WorkingDirectory'])}/{name}")
    etc = root.path(f'etc/litefs/{name}.toml')
    os.makedirs(state)
    same(unit['StateDirectory'], 'litefs/app', 'the state folder of the unit')
    same(unit['WorkingDirectory'], '/var/lib/litefs/app', 'the working folder of the unit')
    program = root.path(unit['ExecStart'].split()[0])
    same(unit['ExecStart'].split()[1:], ['mount'], 'the word of the unit')
    node = Node(following, folder=state, program=program, starts=False)
    os.remove(f'{state}/litefs.toml')
    with open(etc, 'w') as file:
        file.write(configuration(node.port, following and following.port))
    link = unit['ExecStartPre'].replace('/etc/litefs/app.toml', etc).split()
    subprocess.run(link, cwd=state, check=True)
    node.start()
    return node


def installed():
    clients = [path for path, source in CLIENTS.items() if os.path.exists(f'{places.ROOT}/{source}')]  # another script may be building one
    with Root() as root:
        root.dpkg('-i', built()[0])
        for name in (*WANTED, *clients):
            holds(os.path.isfile(root.path(name)), f'{name} is there')
            same((os.stat(root.path(name)).st_uid, os.stat(root.path(name)).st_mode & 0o022), (0, 0), f'owner and mode of {name}')
        same(outcome(root.path('usr/bin/litefs'), ['--help']), (2, 'litefs: words refused\n'), 'the program')
        if shutil.which('systemd-sysusers'):
            holds(b'\nlitefs:' in b'\n' + read(root.path('etc/passwd')), 'the user is made')
        with started(root, 'one') as primary, started(root, 'two', primary) as replica:
            connection = in_mode(primary.socket, 'wal')
            fill(connection, range(20))
            primary.level(replica)
            seen = seen_by(connection)
            connection.close()
            primary.kill()
            replica.kill()
            root.dpkg('-r', 'litefs')
            holds(not os.path.exists(root.path('usr/bin/litefs')), 'the program is gone')
            root.dpkg('-P', 'litefs')
            holds(not os.path.exists(root.path('usr/share/doc/litefs')), 'the pages are gone')
            for node in (primary, replica):
                same(node.image() == seen, True, 'the data stays')
                holds(read(f'{node.folder}/litefs.toml').startswith(b'database'), 'the configuration stays')


def from_the_tar():
    with tempfile.TemporaryDirectory(prefix='litefs-tar-') as folder:
        subprocess.run(['tar', '-C', folder, '-xzf', built()[1]], check=True)
        top = os.path.join(folder, *os.listdir(folder))
        with open(f'{places.ROOT}/VERSION') as file:
            same(os.path.basename(top), f'litefs-{file.read().strip()}-linux-x86_64', 'its folder')
        program = f'{top}/usr/bin/litefs'
        with Node(program=program) as primary, Node(primary, program=program) as replica:
            fill(in_mode(primary.socket, 'delete'), range(5))
            primary.level(replica)


def units():
    """systemd reads the units without a complaint."""
    if not shutil.which('systemd-analyze'):
        raise Skipped('no systemd-analyze')
    with Root() as root:
        root.dpkg('-i', built()[0])
        os.makedirs(root.path('bin'))
        os.symlink('/bin/ln', root.path('bin/ln'))
        for it in UNITS:
            instance = root.path(f'{it}app.service')
            shutil.copy(root.path(f'usr/lib/systemd/system/{it}.service'), instance)
            ran = subprocess.run(['systemd-analyze', 'verify', '--man=no', '--recursive-errors=no', instance], capture_output=True, text=True)
            complaints = [line for line in ran.stderr.splitlines() if it in line and 'is not executable' not in line]
            same(complaints, [], f'what systemd says of {it}')


def man_pages():
    if not shutil.which('groff'):
        raise Skipped('no groff')
    for name, head in PAGES.items():
        ran = subprocess.run(['groff', '-man', '-ww', '-Tascii', '-P-cbou', f'{places.ROOT}/packaging/{name}'], capture_output=True, text=True)
        same((ran.returncode, ran.stderr), (0, ''), f'what groff says of {name}')
        same(ran.stdout.split()[0], head, f'the head of {name}')


def example():
    """The example is a configuration, over a socket and a port that this machine has."""
    with Node(starts=False) as node:
        text = read(f'{places.ROOT}/packaging/litefs.toml').decode()
        text = text.replace('/run/litefs/app/app.sock', node.socket).replace(':20202"\n\n', f'127.0.0.1:{node.port}"\n\n')
        node.configure(text)
        node.start()
        until(lambda: node.position().txid == 0, 'it answers')


run({call.__name__: call for call in (installed, from_the_tar, units, man_pages, example)})
