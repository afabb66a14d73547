#!/usr/bin/python3
"""Three nodes that ask a lease service which of them is primary, under real SQLite: the first candidate is; killed, stopped for
longer than its lease, cut off from a service that is started anew or that answers nonsense, it is followed by another, and no two
take writes under one grant. A transaction inside which the lease ends is not committed. An old primary that went on alone is brought
over, also where it stands at the new one's position with other pages. A candidate without a database lets the others go first. At the end of
each case but the one of a node alone all three have one position and one image.

At most: 900 seconds.
Seen to fail: a service that tells a longer time than it grants (stopped, stopped_at_work, inside, cut_off), one that answers at once after
its start (service_anew): a write at a node while another one's grant stands, a commit that is not refused. A build whose followers say
nothing of their last file, given the cases of a fork: the old primary stays apart. One whose candidates without a database ask at once
(empty_candidate): the new one is primary."""
import functools
import socket
import time

from support import Cluster, Node, Service, Skipped, configuration, failovers, holds, in_each_mode, in_mode, length, run, same, until
from support.cluster import Door, Server, keys, made, standing_still, takes

TURNS = length(2, 10)
EMPTIES = length(1, 50)
EITHER = length(('wal',), ('delete', 'wal'))
WAITS = ('lease: this node has no database: it asks to be primary once nobody has led for three times lease.ttl '
         '(lease.bootstrap = true asks at once)')


def over(call, *words):
    """The case of support/failovers.py, over a cluster in this mode."""
    def case(mode):
        with Cluster(mode) as cluster:
            call(cluster, *words)
    return case


def broken(mode):
    failovers.broken(functools.partial(Cluster, mode))


def service_anew(mode):
    """The service is killed and started again, with and without the primary: no node takes a write while another one's grant stands."""
    with Cluster(mode) as cluster:
        primary = cluster.nodes[0]
        kept = keys(primary)
        with cluster.cut_off(primary):
            cluster.service.kill()
            cluster.service.launch()
            cluster.refuses(primary)
        cluster.service.kill()
        cluster.service.launch()
        cluster.has_one()
        cluster.ends(kept)


def service_stopped(mode):
    """The service stands still for longer than a lease: nobody takes writes meanwhile, and it goes on."""
    with Cluster(mode) as cluster:
        kept = keys(cluster.nodes[0])
        with standing_still(cluster.service):
            until(lambda: not cluster.takers(), 'no node takes writes')
        cluster.has_one()
        cluster.ends(kept)


def nonsense(mode):
    """A service that answers nonsense: once its lease has ended nobody takes writes, everybody reads, and it goes on with a sound one."""
    with Cluster(mode) as cluster:
        kept = keys(cluster.nodes[0])
        cluster.service.kill()
        with Server(cluster.service.port) as server:
            until(lambda: not cluster.takers(), 'no node takes writes')
            seen = server.links
            until(lambda: server.links > seen + 3 * len(cluster.nodes) * 9, 'the nodes go on asking')
            holds(not cluster.takers(), 'nobody takes writes')
            for node in cluster.nodes:
                holds(kept <= keys(node), 'rows are read')
            server.shutdown()
        cluster.service.start()
        cluster.ends(kept)


def alone(mode):
    """A candidate without a database that doesn't begin the cluster is alone: it says once that it waits, and is primary after three leases'
    time without one. Started anew, with a database, it says nothing more and doesn't wait."""
    with Service(ttl=2000) as service, Door(service) as door, Node(service=door) as node:
        began = time.monotonic()
        until(lambda: made(node, mode), 'it takes writes')
        holds(time.monotonic() >= began + 3 * service.ttl / 1000, 'it has waited')
        waits = [it for it in node.lines() if it.startswith('lease: ')]
        same(waits, [WAITS], 'the line')
        node.kill()
        until(lambda: service.info() == {}, 'its lease has ended')
        began = time.monotonic()
        node.start()
        until(lambda: takes(node, 'create table if not exists a(x)'), 'it takes writes again')
        holds(time.monotonic() < began + service.ttl / 1000, 'it has not waited')
        same([it for it in node.lines() if it.startswith('lease: ')], [WAITS], 'the line')


def forked(mode):
    """The old primary's last row, which nobody else has, and the new one's lead to the same position: it is brought over all the same."""
    with_last_file()
    with Cluster(mode) as cluster:
        old, heir = fork(cluster)
        until(lambda: old.image() == heir.image(), 'the old primary is brought over')
        cluster.ends(set())


def forked_apart(mode):
    """The same where the new primary's log has no file of that transaction any more: the next one leads the old primary to another sum."""
    with_last_file()
    with Cluster(mode, keep=1) as cluster:
        old, heir = fork(cluster, 'insert into b values(2)')
        until(lambda: old.image() == heir.image(), 'the old primary is brought over')
        cluster.ends(set())


def fork(cluster, *more):
    """An old primary that is back with a row that nobody else has, and the new one, which has another one at the same position, and
    the rows of these statements."""
    old = cluster.follows()
    heir = cluster.heir(old)
    for table in 'ab':
        same(takes(old, f'create table {table}(x)'), True, 'a table')
    cluster.level(old)
    others = [it for it in cluster.nodes if it is not old]
    for it in others:
        it.kill()
    same(takes(old, 'insert into a values(1)'), True, 'a row at the old primary')
    position = old.position()
    old.kill()
    for it in others:
        it.start()
    until(lambda: takes(heir, 'insert into b values(1)'), 'a row at the new primary')
    same(heir.position(), position, 'the position of the new primary')
    holds(old.image() != heir.image(), 'their pages differ')
    for it in more:
        same(takes(heir, it), True, it)
    old.start()
    return old, heir


def with_last_file():
    if not says_last_file():
        raise Skipped('this build says nothing of a follower\'s last file')


@functools.cache
def says_last_file():
    """Whether a follower says in its request for a stream which file of its log is the last."""
    with Node() as node, socket.create_server(('127.0.0.1', 0)) as server:
        in_mode(node.socket, 'delete').close()
        node.kill()
        node.configure(configuration(node.port, server.getsockname()[1]))
        node.start()
        server.settimeout(60)
        link, _ = server.accept()
        with link, link.makefile('rb') as text:
            head = iter(lambda: text.readline().strip().lower(), b'')
            return any(it.startswith(b'litefs-last-file:') for it in head)


run({**in_each_mode(('delete', 'wal'), killed=over(failovers.killed, TURNS), stopped=over(failovers.stopped),
                    stopped_at_work=over(failovers.stopped_at_work, length(1, 10)), inside=over(failovers.inside), forked=forked,
                    forked_apart=forked_apart),
     **in_each_mode(EITHER, service_anew=service_anew, nonsense=nonsense, broken=broken, alone=alone,
                    empty_candidate=over(failovers.empty_candidate, EMPTIES)),
     **in_each_mode(length((), EITHER), service_stopped=service_stopped, cut_off=over(failovers.cut_off))}, at_once=4)
