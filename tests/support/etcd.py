"""An etcd cluster of three members on loopback, each in a folder of its own, which grants leases to nodes."""
import base64
import contextlib
import json
import os
import shutil
import signal
import subprocess
import tempfile
import time

from .cases import holds, same
from .cluster import Cluster, Passing
from .listening import Listening
from .outcomes import Skipped
from .running import free_port
from .waiting import until

KEY = 'litefs/app/primary'


class Etcd:
    """Grants leases of `ttl` milliseconds."""

    def __init__(self, ttl=4000):
        if not shutil.which('etcd') or not shutil.which('etcdctl'):
            raise Skipped('etcd-server and etcd-client are not installed')
        self.ttl = ttl
        self.seen = {}
        self.members = [Member(it) for it in 'abc']
        self.cluster = ','.join(f'{it.name}=http://127.0.0.1:{it.peers}' for it in self.members)

    def __enter__(self):
        try:
            for it in self.members:
                it.launch(self.cluster)
            until(self.leader, 'etcd has a leader')
        except BaseException:
            self.__exit__()
            raise
        return self

    def __exit__(self, *_):
        for it in self.members:
            it.remove()

    def ask(self, *words):
        """What etcdctl writes, None where no member answers."""
        return asked('--endpoints', ','.join(it.address for it in self.members), '--command-timeout', '3s', *words)

    def leader(self):
        """The member that leads, None where none is known. During an election a member's status has no leader."""
        for it in self.members:
            status = it.status()
            if status and status.get('leader') == status['header']['member_id']:
                return it
        return None

    def have_led(self, member):
        """Waits until this member leads, and makes it so where another does."""
        def leads():
            leader = self.leader()
            if leader and leader is not member:
                asked('--endpoints', leader.address, 'move-leader', f'{member.status()["header"]["member_id"]:x}')
            return leader is member
        until(leads, 'the member leads')

    def key(self):
        """The key as etcdctl tells it: {} where there is none, None where etcd doesn't answer."""
        text = self.ask('get', KEY, '-w', 'json')
        return None if text is None else (json.loads(text).get('kvs') or [{}])[0]

    def end_lease(self):
        """Ends the lease that the key has."""
        holds(self.ask('lease', 'revoke', f'{self.key()["lease"]:x}') is not None, 'the lease is ended')

    def info(self):
        """The grant that stands, as a lease service tells it: {} where there is none, None where etcd doesn't answer. A key stands for a
        grant a lease's time less a second after its put, and here after it was seen first: until then whoever had one before may have it."""
        found = self.key()
        if not found:
            return found
        stands = self.seen.setdefault(found['create_revision'], time.monotonic()) + self.ttl / 1000 - 1
        value = json.loads(base64.b64decode(found['value']))
        return dict(value, term=found['create_revision']) if time.monotonic() >= stands else {}


def asked(*words):
    """What etcdctl writes at these words, None where it fails."""
    ran = subprocess.run(['etcdctl', *words], env=dict(os.environ, ETCDCTL_API='3'), stdout=subprocess.PIPE, stderr=subprocess.DEVNULL)
    return ran.stdout.decode() if ran.returncode == 0 else None


class Member:
    def __init__(self, name):
        self.name, self.port, self.peers = name, free_port(), free_port()
        self.address = f'http://127.0.0.1:{self.port}'
        self.folder = tempfile.mkdtemp(prefix='litefs-etcd-')
        self.process = None

    def launch(self, cluster):
        here, peers = self.address, f'http://127.0.0.1:{self.peers}'
        self.cluster = cluster
        with open(f'{self.folder}/errors', 'ab') as errors:
            self.process = subprocess.Popen(
                ['etcd', '--name', self.name, '--data-dir', f'{self.folder}/data', '--listen-client-urls', here,
                 '--advertise-client-urls', here, '--listen-peer-urls', peers, '--initial-advertise-peer-urls', peers,
                 '--initial-cluster', cluster, '--unsafe-no-fsync'], stdin=subprocess.DEVNULL, stdout=errors, stderr=errors)

    def start(self):
        self.launch(self.cluster)

    def kill(self):
        if self.process and self.process.poll() is None:
            self.process.send_signal(signal.SIGCONT)
            self.process.kill()
        if self.process:
            self.process.wait()

    def remove(self):
        self.kill()
        shutil.rmtree(self.folder, ignore_errors=True)

    def status(self):
        """What the member says of itself, None where it doesn't."""
        said = asked('--endpoints', self.address, '--command-timeout', '2s', 'endpoint', 'status', '-w', 'json')
        return json.loads(said)[0]['Status'] if said else None


class EtcdCluster(Cluster):
    """Three nodes that take their leases from etcd. `before`: endpoints that each is told before those of the members."""

    def __init__(self, mode, before=()):
        self.before = list(before)
        super().__init__(mode)

    def holder(self, grant):
        """The node whose name is in the key, and its URL."""
        node = super().holder(grant)
        if node:
            same(grant['url'], f'http://127.0.0.1:{node.port}', 'the URL in the key')
        return node

    def makes_service(self):
        return Etcd()

    def makes_door(self):
        return Doors(self.service, self.before)


class Doors(contextlib.ExitStack):
    """One door before each member."""

    def __init__(self, etcd, before):
        super().__init__()
        self.ttl = etcd.ttl
        self.doors = [self.enter_context(Door(it)) for it in etcd.members]
        told = [f'"http://127.0.0.1:{it}"' for it in [*before, *(it.port for it in self.doors)]]
        self.told = f'type = "etcd"\netcd.endpoints = [{", ".join(told)}]\netcd.key = "{KEY}"\n'

    @property
    def open(self):
        return self.doors[0].open

    @open.setter
    def open(self, value):
        for it in self.doors:
            it.open = value


class Door(Listening):
    """Stands before a member, and passes links on while it is open."""

    def __init__(self, member):
        self.service, self.open = member, True
        super().__init__(Passing)
