"""What becomes of three nodes whose primary is killed, stands still or is cut off, whichever service says who is primary."""
import contextlib
import os
import shutil
import sqlite3

from .cases import holds, refuses, same
from .cluster import keys, standing_still
from .mounted import small_disk
from .node import leased
from .sqlite import connect
from .waiting import until
from .workload import insert


def killed(cluster, turns):
    """kill -9 of whoever is primary while it takes rows: what the next one had is there, the third follows it, and then the old one."""
    for _ in range(turns):
        before = cluster.follows()
        cluster.level(before)
        kept = keys(before)
        primary, writer = cluster.at_work()
        primary.kill()
        writer.ended()
        heir = cluster.heir(primary)
        kept |= keys(heir)
        same(cluster.follows(primary) is heir, True, 'the other candidate is primary')
        cluster.level(heir, without=primary)
        primary.start()
        cluster.refuses(primary)
        cluster.ends(kept)


def empty_candidate(cluster, turns):
    """A candidate that has no database is started at the moment of a kill -9 of the primary, just before and just after: the one that is level
    leads, every row is there, and the new one follows."""
    third = cluster.nodes[2]
    third.configure(leased(third.port, cluster.doors[third], True, False))
    for turn in range(turns):
        primary = cluster.follows()
        heir = cluster.heir(primary)
        third.kill()
        shutil.rmtree(third.data, ignore_errors=True)
        primary.level(heir)
        kept = keys(primary)
        first, last = (third.launch, primary.kill) if turn % 2 else (primary.kill, third.launch)
        first()
        last()
        until(lambda: cluster.primary() not in (None, primary), 'another node is primary')
        same(cluster.primary() is heir, True, 'the candidate that is level is primary')
        same(cluster.follows(primary) is heir, True, 'it takes writes')
        heir.level(third)
        holds(kept <= keys(heir), 'every row is there')
        primary.start()
        cluster.ends(kept)


def stopped(cluster):
    """A primary that stands still for longer than its lease takes no write when it goes on, and follows."""
    primary = cluster.follows()
    cluster.level(primary)
    kept = keys(primary)
    with cluster.cut_off(primary):
        with standing_still(primary):
            cluster.level(cluster.follows(primary), without=primary)
        cluster.refuses(primary)
    cluster.ends(kept)


def stopped_at_work(cluster, turns):
    """The same while a client writes: of what it is answered afterwards one row at most, which was on its way."""
    for _ in range(turns):
        primary, writer = cluster.at_work()
        with cluster.cut_off(primary):
            with standing_still(primary):
                heir = cluster.follows(primary)
                cluster.level(heir, without=primary)
                kept, before = keys(heir), list(writer.answered)
            after = writer.ended()[len(before):]
            holds(len(after) <= 1, f'{len(after)} rows are taken behind the lease\'s end')
        cluster.ends(kept)


def inside(cluster):
    """A transaction inside which the lease ends, with pages in the file already, is not committed."""
    before = cluster.follows()
    cluster.level(before)
    kept = keys(before)
    primary, connection = until(lambda: begun(cluster.follows()), 'a transaction is begun')
    with contextlib.closing(connection):
        with cluster.cut_off(primary):
            with standing_still(primary):
                cluster.follows(primary)
            refuses(lambda: connection.execute('commit'), sqlite3.Error, 'the commit')
    cluster.ends(kept)
    for node in cluster.nodes:
        holds(min(keys(node)) > 0, 'nothing of it is there')


def begun(primary):
    """The node, and a connection inside a transaction that has pages in the file; None where a row is refused."""
    connection = connect(primary.socket)
    try:
        connection.execute('pragma cache_size=4')
        connection.execute('begin immediate')
        for key in range(-40, 0):
            connection.execute(*insert(key, 3000))
        return primary, connection
    except sqlite3.Error:
        connection.close()


def cut_off(cluster):
    """A primary that can't reach the service, and the others can: another one takes over, and it follows once it can again."""
    primary = cluster.nodes[0]
    kept = keys(primary)
    with cluster.cut_off(primary):
        heir = cluster.follows(primary)
        cluster.refuses(primary)
        cluster.level(heir, without=primary)
    cluster.ends(kept)


def broken(made):
    """A primary whose disk is full gives its lease back, and another one takes over. With room, and started anew, it follows."""
    with small_disk('size=32m') as disk, made(folder=disk.folder) as cluster:
        primary = cluster.nodes[0]
        kept = keys(primary)
        with open(f'{disk.folder}/filler', 'wb', buffering=0) as filler, contextlib.suppress(OSError):
            while filler.write(bytes(1000)):
                pass
        until(lambda: not cluster.writes(primary), 'a write that finds no room')
        same(primary.ended(), 5, 'its status')
        cluster.level(cluster.follows(primary), without=primary)
        os.remove(f'{disk.folder}/filler')
        primary.start()
        cluster.ends(kept)
