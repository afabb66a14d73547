#!/usr/bin/python3
"""Three nodes that take their leases from three members of etcd, under real SQLite: a member and then the leader killed and stopped, all
gone and back, the primary killed, stopped and cut off, endpoints that refuse, are silent, answer nonsense or an error. At each look one
node at most takes writes, and it is the one whose name and URL are in the key, as etcdctl tells it.

At most: 900 seconds.
Seen to fail: doors of the first node behind which a renewal says ten times its time (stopped, inside, cut_off, all_gone, ended_early): a write
at a node while another one's key stands, a commit that is not refused, writes without etcd. A build that takes a key for a lease as soon as it
is put (ended_early): two nodes take writes. One that asks the first endpoint alone (members_killed, refuses, error): no node takes writes. One whose
candidates without a database ask at once (empty_candidate): the new one is primary, and nobody has the rows."""
import contextlib
import functools
import socket
import time

from support import failovers, holds, in_each_mode, length, run, until
from support.cluster import Nonsense, keys, standing_still
from support.etcd import EtcdCluster
from support.listening import Listening

TURNS, EMPTIES, TRIES = length(2, 10), length(1, 50), 3


def over(call, *words):
    """The case over a cluster in this mode."""
    def case(mode):
        with EtcdCluster(mode) as cluster:
            call(cluster, *words)
    return case


def within(seconds, waits, what):
    """One of the waits, each of which tells how long it took, is no longer: a machine that stalls makes one longer now and then."""
    took = []
    while not took or took[-1] > seconds:
        holds(len(took) < TRIES, f'{what} within {seconds} seconds: {took}')
        took.append(waits())


def longest_pause(cluster):
    """The longest time in which no node takes a write, of two leases' time from now on."""
    last = time.monotonic()
    end = last + 2 * cluster.service.ttl / 1000
    longest = 0
    while (now := time.monotonic()) < end:
        _, took = cluster.look()
        longest = max(longest, time.monotonic() - last)
        last = now if took else last
    return longest


def members_killed(cluster):
    """The member that the nodes ask is killed, once one that follows and then two that lead: the primary stays, or another one comes
    within a lease's time."""
    kept = keys(cluster.nodes[0])
    etcd = cluster.service

    def killed(member, leads):
        etcd.have_led(member if leads else next(it for it in etcd.members if it is not member))
        member.kill()
        pause = longest_pause(cluster)
        member.start()
        until(etcd.leader, 'etcd has a leader')
        cluster.follows()
        return pause
    for member in etcd.members:
        leads = member is not etcd.members[0]
        within(etcd.ttl / 1000, functools.partial(killed, member, leads), f'a member is killed, {leads=}: a node takes writes')
    cluster.ends(kept)


def leader_stopped(cluster):
    """The leader stands still for longer than a lease, and goes on."""
    kept = keys(cluster.nodes[0])
    with standing_still(cluster.service.leader()):
        cluster.has_one()
        cluster.follows()
    cluster.has_one()
    cluster.ends(kept)


def ended_early(cluster):
    """etcd ends a lease that was renewed a moment ago, as a leader does that stood still and goes on, and the primary can't hear of it:
    no other node takes a write while the primary still does."""
    primary = cluster.follows()
    kept = keys(primary)
    with cluster.cut_off(primary):
        cluster.service.end_lease()
        others = [it for it in cluster.nodes if it is not primary]
        until(lambda: took_over(cluster, primary, others), 'another node takes writes')
        for _ in range(20):
            took_over(cluster, primary, others)
    cluster.ends(kept)


def took_over(cluster, primary, others):
    """Whether one of these takes a write; then the primary takes none any more."""
    took = any(cluster.writes(it) for it in others)
    holds(not (took and cluster.writes(primary)), 'two nodes take writes')
    return took


def all_gone(cluster):
    """No member answers: the primary takes no write from its lease's end on, and nobody does. Back again, one is primary."""
    kept = keys(cluster.nodes[0])
    for it in cluster.service.members:
        it.kill()
    ended = time.monotonic() + cluster.service.ttl / 1000
    time.sleep(cluster.service.ttl / 1000)
    while time.monotonic() < ended + 2 * cluster.service.ttl / 1000:
        holds(not cluster.takers(), 'nobody takes writes without etcd')
    for node in cluster.nodes:
        holds(kept <= keys(node), 'rows are read')
    for it in cluster.service.members:
        it.start()
    cluster.follows()
    cluster.has_one()
    cluster.ends(kept)


def primary_killed(cluster):
    """kill -9 of the primary: another one takes writes within twice a lease's time, and what it had is there."""
    def killed():
        primary = cluster.follows()
        cluster.level(primary)
        kept = keys(primary)
        primary.kill()
        since = time.monotonic()
        until(lambda: any(cluster.writes(it) for it in cluster.nodes if it is not primary), 'another node takes writes')
        took = time.monotonic() - since
        cluster.level(cluster.follows(primary), without=primary)
        primary.start()
        cluster.ends(kept)
        return took
    within(2 * cluster.service.ttl / 1000 + 1, killed, 'another node takes writes')


def told(cluster, port):
    """An endpoint of no use stands before the others: each node says so on standard error, and the lease is taken from the next."""
    cluster.has_one()
    for node in cluster.nodes:
        until(lambda node=node: f'lease: 127.0.0.1:{port} gave no answer' in node.lines(), 'a line names the endpoint')
    cluster.ends(keys(cluster.follows()))


def alone(cluster, server):
    """Nothing but that endpoint is reached: whatever it answers, nobody is primary; and somebody is once the others are back."""
    with contextlib.ExitStack() as cut:
        for node in cluster.nodes:
            cut.enter_context(cluster.cut_off(node))
        until(lambda: not cluster.takers(), 'no node takes writes')
        asked = server.links + 3 * len(cluster.nodes) * len(server.RequestHandlerClass.texts)
        until(lambda: server.links > asked, 'the nodes go on asking')
        holds(not cluster.takers(), 'nobody takes writes')
    cluster.has_one()
    cluster.ends(keys(cluster.follows()))


class Refusing(Nonsense):
    """Answers each link with an error in JSON."""
    texts = (b'HTTP/1.0 503 Service Unavailable\r\nContent-Type: application/json\r\n\r\n{"error":"etcdserver: no leader","code":14}',
             b'HTTP/1.0 200 OK\r\nContent-Type: application/json\r\n\r\n{"error":"etcdserver: user name is empty","code":3}',
             b'HTTP/1.0 200 OK\r\n\r\n{"header":{},"error":{"grpc_code":14}}', b'HTTP/1.0 200 OK\r\n\r\n{"header":{"revision":"x"},"ID":"1","TTL":"x"}')


def refuses(mode):
    """A port at which nobody listens."""
    with socket.create_server(('127.0.0.1', 0)) as server:
        port = server.getsockname()[1]
    with EtcdCluster(mode, before=[port]) as cluster:
        told(cluster, port)


def silent(mode):
    """A port that is dialed, and at which nothing is said."""
    with socket.create_server(('127.0.0.1', 0), backlog=500) as server:
        port = server.getsockname()[1]
        with EtcdCluster(mode, before=[port]) as cluster:
            told(cluster, port)


def answers(handler):
    """A port at which this is answered."""
    def case(mode):
        with Listening(handler) as server:
            server.links = 0
            with EtcdCluster(mode, before=[server.port]) as cluster:
                told(cluster, server.port)
                alone(cluster, server)
    return case


run(in_each_mode(('wal',), members_killed=over(members_killed), leader_stopped=over(leader_stopped), ended_early=over(ended_early),
                 all_gone=over(all_gone), primary_killed=over(primary_killed), killed=over(failovers.killed, TURNS),
                 empty_candidate=over(failovers.empty_candidate, EMPTIES),
                 stopped=over(failovers.stopped), inside=over(failovers.inside), cut_off=over(failovers.cut_off),
                 refuses=refuses, silent=silent, nonsense=answers(Nonsense), error=answers(Refusing)),
    at_once=3)
