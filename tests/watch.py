#!/usr/bin/python3
"""What a node tells over HTTP to who watches it: /info as JSON, /metrics as Debian's python3-prometheus-client reads them, /events as lines
of JSON. Each number moves as it must under commits, followers, a failover by the lease service; readers of events that are gone or
that read nothing are found; docs/FORMATS.md has the names that /metrics has, and docs/alerts.yml and docs/dashboard.json use no others.

At most: 600 seconds.
Seen to fail: a stand-in that leaves out an event (events, crowd), whose number is always the same (info_of_each), or that counts no snapshots and no
refusals (followers, refusals); a node that as primary names the one before (failover)."""
import contextlib
import itertools
import json
import os
import re
import sqlite3
import time

from support import ROOT, Cluster, Link, Node, connect, fill, holds, in_mode, insert, level_pair, read, run, same, until
from support.cluster import takes
from support.network import narrow
from support.permit import permitted
from support.watching import Metrics, Reader, got, info
from support.wire import ROOT_NODE, UNLINK

BOUNDS = ['0.001', '0.002', '0.005', '0.01', '0.025', '0.05', '0.1', '0.25', '1', '10', '+Inf']
GAUGES = {'is_primary', 'is_halted', 'db_count', 'subscriber_count', 'watcher_count', 'db_txid', 'db_pages', 'db_page_bytes', 'log_first_txid',
          'log_files', 'log_bytes', 'store_broken', 'uptime_seconds'}
COUNTERS = {'commits_total', 'stream_sent_bytes_total', 'frames_held_total', 'snapshots_total', 'refusals_total'}
HISTOGRAMS = {'commit_seconds', 'replica_lag_seconds'}


def pages(node):
    with contextlib.closing(connect(node.socket)) as connection:
        return connection.execute('pragma page_count').fetchone()[0]


def print_of(node):
    at = node.position()
    return f'{at.txid:016x}/{at.sum}'


def told_of(node, **more):
    """What /info is to say of a node, but for its number and its time."""
    files = [os.path.basename(it) for it in node.log()]
    at = print_of(node)
    return {'version': read(f'{ROOT}/VERSION').decode().strip(), 'name': 'app', 'pos': at, 'first': files[0][:16] if files else '0' * 16,
            'last': at[:16], 'files': len(files), 'pageSize': 4096 if files else 0, 'commit': pages(node) if files else 0, 'broken': False, **more}


def tells(node, wanted):
    found = info(node)
    number, uptime = found.pop('node'), found.pop('uptime')
    holds(re.fullmatch('[0-9a-f]{16}', number) and isinstance(uptime, int), f'its number and time: {number}, {uptime}')
    same(found, wanted, '/info')
    return number, uptime


def info_of_each():
    """Of a node without a database, of a primary and of its replica, before and behind commits and a start."""
    with Node() as node:
        tells(node, told_of(node, role='primary', primary=None, primaryUrl=None, followers=0, watchers=0))
    with level_pair('wal') as (primary, replica, writer):
        first = {'role': 'primary', 'primary': None, 'primaryUrl': None, 'followers': 1, 'watchers': 0}
        second = {'role': 'replica', 'primary': 'db1', 'primaryUrl': f'http://127.0.0.1:{primary.port}', 'followers': 0, 'watchers': 0}
        for _ in range(3):
            primary.level(replica)
            tells(primary, told_of(primary, **first))
            tells(replica, told_of(replica, **second))
            fill(writer, range(info(primary)['files'] * 100, info(primary)['files'] * 100 + 3))
        number, uptime = tells(primary, told_of(primary, **first))
        until(lambda: info(primary)['uptime'] > uptime, 'its time goes on')
        primary.restart()
        until(lambda: info(primary)['followers'] == 1, 'it is followed anew')
        same(tells(primary, told_of(primary, **first))[0] != number, True, 'a start gives it another number')


def pruned():
    """Where the log is short: the first transaction, and how many files."""
    with Node(keep=3) as node:
        fill(in_mode(node.socket, 'delete'), range(8))
        until(lambda: info(node)['files'] == 3, 'the log is short')
        same((info(node)['first'], info(node)['last']), (f'{7:016x}', f'{9:016x}'), 'its first and its last')
        found = Metrics(node)
        same((found['log_first_txid'], found['log_files'], found['db_txid']), (7, 3, 9), 'the same of /metrics')


def shape():
    """Each name has its kind; histograms add up, with the bounds that FORMATS has."""
    with level_pair('delete') as (primary, replica, writer):
        for node in primary, replica:
            found = Metrics(node)
            same(found.kinds, {f'litefs_{name}': kind for names, kind in ((GAUGES, 'gauge'), (COUNTERS, 'counter'), (HISTOGRAMS, 'histogram'))
                               for name in names}, 'names and kinds')
            for name in HISTOGRAMS:
                buckets = found.labelled(f'{name}_bucket')
                same(list(buckets), BOUNDS, f'the bounds of {name}')
                same(sorted(buckets.values()), list(buckets.values()), f'{name} rises')
                same(buckets['+Inf'], found[f'{name}_count'], f'all of {name}')
                holds(found[f'{name}_sum'] >= 0 and (found[f'{name}_count'] or not found[f'{name}_sum']), f'the sum of {name}')


def agrees(node):
    """What the node's folder and SQLite say."""
    found, files = Metrics(node), node.log()
    same({it: found[it] for it in ('db_count', 'db_txid', 'db_pages', 'db_page_bytes', 'log_first_txid', 'log_files', 'log_bytes', 'store_broken',
                                   'is_halted')},
         {'db_count': 1, 'db_txid': node.position().txid, 'db_pages': pages(node), 'db_page_bytes': 4096,
          'log_first_txid': int(os.path.basename(files[0])[:16], 16), 'log_files': len(files), 'log_bytes': sum(map(os.path.getsize, files)),
          'store_broken': 0, 'is_halted': 0}, 'what /metrics says')
    return found


def commits():
    """Commits at a primary, which its replica applies."""
    for mode in 'delete', 'wal':
        with level_pair(mode) as (primary, replica, writer):
            first, second = agrees(primary), agrees(replica)
            same((first['is_primary'], second['is_primary']), (1, 0), 'who is primary')
            same((first['subscriber_count'], second['subscriber_count']), (1, 0), 'who is followed')
            before = len(primary.log())
            fill(writer, range(100, 120))
            primary.level(replica)
            news = primary.log()[before:]
            same(len(news), 20, 'files of the log')
            after, behind = agrees(primary), agrees(replica)
            for name, node, was, count in (('commits_total', after, first, 20), ('commits_total', behind, second, 20),
                                           ('commit_seconds_count', after, first, 20), ('commit_seconds_count', behind, second, 20),
                                           ('replica_lag_seconds_count', behind, second, 20), ('replica_lag_seconds_count', after, first, 0),
                                           ('snapshots_total', after, first, 0), ('snapshots_total', behind, second, 0)):
                same(node[name] - was[name], count, f'{name} moves')
            holds(after['stream_sent_bytes_total'] - first['stream_sent_bytes_total'] >= sum(map(os.path.getsize, news)), 'the files are sent')
            same(behind['stream_sent_bytes_total'], 0, 'a replica sends nothing')
            holds(after['commit_seconds_sum'] >= first['commit_seconds_sum'], 'the time of commits')
            holds(after['uptime_seconds'] >= first['uptime_seconds'], 'uptime')


def followers():
    """A follower comes, and is gone; snapshots are counted where they are sent and where they are installed."""
    with Node(keep=2) as primary:
        fill(in_mode(primary.socket, 'wal'), range(5))
        until(lambda: len(primary.log()) == 2, 'the log is short')
        same((Metrics(primary)['subscriber_count'], Metrics(primary)['snapshots_total']), (0, 0), 'without a follower')
        with Node(following=primary) as one, Node(following=primary) as two:
            primary.level(one)
            primary.level(two)
            same([Metrics(it)['snapshots_total'] for it in (primary, one, two)], [2, 1, 1], 'snapshots')
            same(Metrics(primary)['subscriber_count'], 2, 'two followers')
            one.kill()
            until(lambda: Metrics(primary)['subscriber_count'] == 1, 'one is gone')
            one.start()
            until(lambda: Metrics(primary)['subscriber_count'] == 2, 'it is back')
        until(lambda: Metrics(primary)['subscriber_count'] == 0, 'both are gone')


def held():
    """A reader inside at a replica holds the next file back, for longer than a second: so late it is applied."""
    with level_pair('delete') as (primary, replica, writer):
        old = Metrics(replica)
        before = old['frames_held_total']
        with contextlib.closing(connect(replica.socket)) as inside:
            inside.execute('begin')
            inside.execute('select count(*) from t').fetchall()
            fill(writer, [1000])
            until(lambda: Metrics(replica)['frames_held_total'] > before, 'a frame is held back')
            time.sleep(1.2)
            inside.execute('rollback')
        primary.level(replica)
        late = Metrics(replica)['replica_lag_seconds_sum'] - old['replica_lag_seconds_sum']
        holds(1 <= late < 600, f'its lag in seconds: {late}')


def refusals():
    """A write at a replica, a lock that another has."""
    with level_pair('delete') as (primary, replica, writer):
        def of(node, name):
            return Metrics(node).labelled('refusals_total').get(name, 0)
        readonly, busy = of(replica, '30'), of(primary, '11')
        same(takes(replica, *insert(5000)), False, 'a write at a replica')
        holds(of(replica, '30') > readonly, f'refusals: {Metrics(replica).labelled("refusals_total")}')
        writer.execute('begin immediate')
        with contextlib.closing(connect(primary.socket, 0)) as other, contextlib.suppress(sqlite3.Error):
            other.execute('begin immediate')
        writer.execute('rollback')
        holds(of(primary, '11') > busy, f'refusals: {Metrics(primary).labelled("refusals_total")}')
        same(of(primary, '30'), 0, 'none of those at the primary')


def halted():
    """A replica with a permit is halted, and tells its role so."""
    with level_pair('wal') as (primary, replica, writer):
        same((Metrics(replica)['is_halted'], info(replica)['role']), (0, 'replica'), 'before')
        with permitted(replica.socket):
            same((Metrics(replica)['is_halted'], info(replica)['role']), (1, 'halted'), 'with the permit')
        until(lambda: (Metrics(replica)['is_halted'], info(replica)['role']) == (0, 'replica'), 'behind it')


def failover():
    """Three nodes by a lease service: who is primary moves, and readers at each are told so, and of each transaction."""
    with Cluster('wal') as cluster, contextlib.ExitStack() as stack:
        first, second, third = cluster.nodes
        for node, role, host in (first, 'primary', None), (second, 'replica', f'db{first.port}'), (third, 'replica', f'db{first.port}'):
            until(lambda node=node, host=host: info(node)['primary'] == host, 'it names the primary')
            same((info(node)['role'], Metrics(node)['is_primary']), (role, role == 'primary'), 'its role')
        readers = {it: stack.enter_context(Reader(it)) for it in cluster.nodes}
        for node, reader in readers.items():
            reader.comes(lambda it: it.of('init'), 'its first line')
            same(reader.of('init'), [{'isPrimary': node is first, 'hostname': '' if node is first else f'db{first.port}'}], 'its first line')
        fill(stack.enter_context(contextlib.closing(connect(first.socket))), range(10000, 10005))
        cluster.level(first)
        last = first.position().txid
        for it in readers.values():
            it.comes(lambda it: last in it.txids(), 'it is told the last transaction')
        first.kill()
        same(cluster.follows(first), second, 'the next primary')
        readers[second].comes(lambda it: it.of('primaryChange'), 'it is told of its role')
        same(readers[second].of('primaryChange')[-1], {'isPrimary': True, 'hostname': ''}, 'its role')
        named = {'isPrimary': False, 'hostname': f'db{second.port}'}
        readers[third].comes(lambda it: named in it.of('primaryChange'), 'it is told who is primary')
        until(lambda: (Metrics(second)['is_primary'], Metrics(third)['is_primary']) == (1, 0), 'the numbers')
        first.start()
        until(lambda: info(first)['primary'] == f'db{second.port}', 'the old one follows')
        same(Metrics(first)['is_primary'], 0, 'it is none any longer')
        cluster.level(second)
        for it in second, third:
            readers[it].comes(lambda reader, it=it: reader.txids()[-1] == it.position().txid, 'all transactions are told')
            same(readers[it].txids(), list(range(2, it.position().txid + 1))[-len(readers[it].txids()):], 'each once, in order')
            same(readers[it].ended, False, 'it goes on')


def events():
    """Each transaction, with its position, its pages and their size, once, in order, at the primary and at a replica."""
    with Node() as primary, Node(following=primary) as replica, Reader(primary) as one, Reader(replica) as two:
        one.comes(lambda it: it.lines, 'a first line')
        same(one.lines, [{'type': 'init', 'data': {'isPrimary': True, 'hostname': ''}}], 'the first line')
        writer, seen = in_mode(primary.socket, 'delete'), {}
        for key in range(30):
            writer.execute(*insert(key, 5000))
            at = primary.position()
            seen[at.txid] = {'txID': f'{at.txid:016x}', 'minTxID': f'{at.txid:016x}', 'postApplyChecksum': at.sum, 'pageSize': 4096,
                             'commit': writer.execute('pragma page_count').fetchone()[0]}
            if key % 10 == 9:
                time.sleep(0.5)
        last = primary.position().txid
        primary.level(replica)
        for reader, hosts in (one, {''}), (two, {'', 'db1'}):
            reader.comes(lambda it: last in it.txids(), 'the last transaction')
            same(reader.txids(), list(range(1, last + 1)), 'each transaction once, in order')
            same({it['db'] for it in reader.lines if it['type'] == 'tx'}, {'app'}, 'the database')
            holds({it['hostname'] for it in reader.of('init') + reader.of('primaryChange')} <= hosts, f'who is primary: {reader.lines}')
            for line in reader.of('tx'):
                wanted = seen.get(int(line['txID'], 16), line)
                same({**wanted, **line}, wanted, 'a transaction')
            same(reader.of('tx')[-1], seen[last], 'the last transaction, with its pages')
        with Reader(primary) as later:
            later.comes(lambda it: it.lines, 'a first line')
            writer.execute(*insert(1000))
            later.comes(lambda it: it.txids(), 'a transaction')
            same(later.txids(), [last + 1], 'what came since it reads, and no other')


def dropped():
    """Behind a drop of the database a reader is told that it lost its place, and the stream ends; a next one begins anew."""
    with Node() as node, Reader(node) as reader:
        fill(in_mode(node.socket, 'delete'), range(3))
        reader.comes(lambda it: len(it.txids()) == 4, 'the transactions')
        with Link(node.socket) as link:
            link.ask(UNLINK, ROOT_NODE, b'app\0')
        reader.comes(lambda it: it.ended, 'it ends')
        same(reader.lines[-1], {'type': 'lost'}, 'its last line')
        with Reader(node) as next_one:
            next_one.comes(lambda it: it.lines, 'a first line')
            in_mode(node.socket, 'delete').close()
            next_one.comes(lambda it: it.txids() == [1], 'transactions of the new one')


def crowd():
    """A hundred readers: each is told all, and counted; those that are gone are found while nothing is committed."""
    with Node() as node, contextlib.ExitStack() as stack:
        writer = in_mode(node.socket, 'wal')
        readers = [stack.enter_context(Reader(node)) for _ in range(100)]
        until(lambda: info(node)['watchers'] == 100 == Metrics(node)['watcher_count'], 'a hundred are counted')
        for it in readers:
            it.comes(lambda it: it.lines, 'a first line')
        first = node.position().txid + 1
        fill(writer, range(50))
        last = node.position().txid
        for it in readers:
            it.comes(lambda it: last in it.txids(), 'the last transaction')
            same(it.txids(), list(range(first, last + 1)), 'each once, in order')
        for it in readers[:99]:
            it.__exit__()
        until(lambda: info(node)['watchers'] == 1, 'those that are gone are found')
        fill(writer, [100])
        readers[99].comes(lambda it: last + 1 in it.txids(), 'the last one reads on')


def reads_nothing():
    """A reader that reads nothing is ended, and holds nobody up; another one reads on. What it finds in the end is in order."""
    narrow(idle_reader)


def idle_reader():
    with Node() as node, Reader(node, idle=True) as idle, Reader(node) as other:
        writer, keys = in_mode(node.socket, 'wal'), itertools.count()
        until(lambda: info(node)['watchers'] == 2, 'both are counted')

        def ended():
            fill(writer, itertools.islice(keys, 20))
            return info(node)['watchers'] == 1
        until(ended, 'it is ended', 400)
        last = node.position().txid
        other.comes(lambda it: last in it.txids(), 'the other one reads on')
        same(other.txids(), list(range(1, last + 1)), 'each once, in order')
        idle.thread.start()
        idle.thread.join(60)
        found = [int(it['data']['txID'], 16) for it in idle.lines if isinstance(it, dict) and it['type'] == 'tx']
        same(found, list(range(1, len(found) + 1)), 'what it was told, in order')
        holds(len(found) < last, 'and not all')


def others():
    """Other methods, other paths."""
    with Node() as node:
        for method, path in (('POST', '/info'), ('POST', '/metrics'), ('DELETE', '/events'), ('GET', '/infos'), ('GET', '/metric'), ('GET', '/event/s')):
            same(got(node, path, method)[0], 404, f'{method} {path}')
        status, fields, text = got(node, '/info')
        same((status, fields['Connection']), (200, 'close'), 'one request a link')


def names():
    """FORMATS has the names and kinds that /metrics has; the alerts and the dashboard use no others."""
    with Node() as node:
        found = Metrics(node)
        rows = re.findall(r'^\| `(litefs_\w+)(?:\{errno\})?` \| (gauge|counter|histogram) \|', read(f'{ROOT}/docs/FORMATS.md').decode(), re.M)
        same(dict(rows), found.kinds, 'the names of FORMATS')
        possible = found.names() | {'litefs_refusals_total'}
        for file in 'alerts.yml', 'dashboard.json':
            used = {name for it in queries(file) for name in re.findall(r'\blitefs_\w+', it)}
            holds(used and used <= possible, f'{file} uses {sorted(used - possible)}')


def queries(file):
    text = read(f'{ROOT}/docs/{file}').decode()
    if file.endswith('.json'):
        return [it['expr'] for panel in json.loads(text)['panels'] for it in panel['targets']]
    parts = re.findall(r'^ +expr: (.*\n(?: {10,}.*\n)*)', text, re.M)
    same(len(parts), text.count('- alert: '), 'a query of each alert')
    return parts


CASES = (info_of_each, pruned, shape, commits, followers, held, refusals, halted, failover, events, dropped, crowd, reads_nothing, others, names)
run({call.__name__: call for call in CASES}, at_once=4)
