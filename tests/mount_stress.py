#!/usr/bin/python3
"""Writers and readers of a mounted database, in processes that are killed at random, at a primary and at its replica. Every
transaction sets all rows to one number, so a reader that sees two numbers has seen half a transaction. At the end both
databases are sound, and the replica stands where the primary does.

At most: 1500 seconds.
Seen to fail: with a lock granted that the node refused (DELETE mode: `disk I/O error` of writers and readers)"""
import random
import time

from support import Node, holds, length, run, same
from support.mount import Mount, damaged, in_each_way, need_mount

ROWS, SECONDS, LIMIT = 30, length(3, 20), 180
WRITER = '''
import random
chance = random.Random(os.getpid())
c = connect()
c.execute('pragma wal_autocheckpoint=%d' % chance.choice([5, 40, 1000]))
c.execute('pragma cache_size=%d' % chance.choice([4, 2000]))
while True:
    try:
        c.execute('begin immediate')
        following = c.execute('select max(v) from s').fetchone()[0] + 1
        c.execute('update s set v=?, x=randomblob(?)', (following, chance.randrange(10, 400)))
        c.execute('rollback' if chance.random() < .1 else 'commit')
        if chance.random() < .1: c.execute('pragma wal_checkpoint(%s)' % chance.choice(['passive', 'restart', 'truncate'])).fetchall()
    except sqlite3.Error as error:
        if c.in_transaction: c.execute('rollback')
        if 'locked' not in str(error): said('other: %s ' % error)
'''
READER = '''
import random
chance = random.Random(os.getpid())
c = connect()
while True:
    try:
        c.execute('begin')
        first = c.execute('select min(v), max(v), count(*) from s').fetchone()
        if chance.random() < .3: time.sleep(chance.random() * .03)
        second = c.execute('select min(v), max(v), count(*) from s').fetchone()
        c.execute('commit')
        if first != second or first[0] != first[1] or first[2] != {rows}: said('torn: %s %s ' % (first, second))
        if chance.random() < .1 and c.execute('pragma quick_check').fetchall() != [('ok',)]: said('torn: quick_check ')
        said('.')
        if chance.random() < .1: c.close(); c = connect()
    except sqlite3.Error as error:
        if c.in_transaction: c.execute('rollback')
        if 'locked' not in str(error): said('other: %s ' % error)
'''.replace('{rows}', str(ROWS))


def table(mount, mode):
    made = mount.in_mode(mode)
    made.execute('create table s(id integer primary key, v, x)')
    made.execute('begin')
    for key in range(ROWS):
        made.execute('insert into s values(?,0,zeroblob(200))', (key,))
    made.execute('commit')
    return made


def stress(mode, way):
    with Node() as node, Node(following=node) as replica, Mount(node, way) as mount, Mount(replica, way) as other:
        table(mount, mode).close()
        node.level(replica)
        kinds = [(mount, WRITER), (mount, WRITER), (mount, WRITER), (mount, READER), (other, READER), (other, READER)]
        processes = [place.client(code) for place, code in kinds]
        before, said, begin = node.position().txid, '', time.monotonic()
        took = lambda: time.monotonic() - begin
        while took() < SECONDS or (took() < LIMIT and (node.position().txid < before + 5 or said.count('.') < 6)):
            time.sleep(random.random() * (.3 + took() / 20))  # later ones live longer, for a slow machine
            k = random.randrange(len(kinds))
            said += killed(processes[k])
            processes[k] = kinds[k][0].client(kinds[k][1])
        said += ''.join(map(killed, processes))
        holds('torn' not in said, said[said.find('torn'):][:300])
        holds('other' not in said, said[said.find('other'):][:300])
        holds(node.position().txid >= before + 5, 'the writers wrote five transactions')
        holds(said.count('.') > 5, f'the readers read {said.count(".")} times')
        node.level(replica)
        for place in (mount, other):
            same(damaged(place.path), [], 'integrity')


def killed(process):
    process.kill()
    return process.communicate()[0]


need_mount()
run(in_each_way(**{mode: lambda way, mode=mode: stress(mode, way) for mode in ('delete', 'truncate', 'persist', 'wal')}))
