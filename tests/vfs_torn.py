#!/usr/bin/python3
"""Readers see whole transactions: each sets all rows to one number, and no reader sees two. Writers and readers are threads of
processes at a primary, and readers at its replica; processes are killed at random.

At most: 600 seconds.
Seen to fail: with a library that reads the header of the shared memory and not its regions (`file is not a database`)."""
import random
import time

from support import Client, Node, connect, holds, in_each_mode, in_mode, length, run, same, seen_by, until

ROWS, TURNS, SECONDS = 40, length(25, 60), 240
CROWD = '''
import random, sqlite3, threading
KINDS = ('passive', 'full', 'restart', 'truncate')
torn, faults, done = [], set(), [0]
def writes(mine, chosen):
    mine.execute('begin immediate')
    number = mine.execute('select max(b) from t').fetchone()[0] + 1
    mine.execute('update t set b = ?, c = randomblob(?)', (number, chosen.randrange(10, 300)))
    mine.execute('rollback' if chosen.random() < .1 else 'commit')
    if chosen.random() < .1: mine.execute('pragma wal_checkpoint(%s)' % chosen.choice(KINDS)).fetchall()
def reads(mine, chosen):
    mine.execute('begin')
    one = mine.execute('select min(b), max(b), count(*) from t').fetchone()
    if chosen.random() < .3: time.sleep(chosen.random() * .01)
    other = mine.execute('select max(b), min(b), count(*) from t').fetchone()
    mine.execute('commit')
    if len({{*one[:2], *other[:2]}}) != 1 or {{one[2], other[2]}} != {{{rows}}}: torn.append((one, other))
    if chosen.random() < .02 and mine.execute('pragma integrity_check').fetchall() != [('ok',)]: torn.append('integrity')
def work(act, seed):
    chosen, mine = random.Random(seed), connect(socket)
    mine.execute('pragma cache_size=%d' % chosen.choice((4, 2000)))
    mine.execute('pragma wal_autocheckpoint=%d' % chosen.choice((5, 40, 1000)))
    while not torn:
        try:
            act(mine, chosen); done[0] += 1
        except sqlite3.Error as fault:
            if 'locked' not in str(fault): faults.add(str(fault))
            if faults: return
            if mine.in_transaction: mine.execute('rollback')
        if chosen.random() < .05: mine.close(); mine = connect(socket)
acts = {acts}
for n, act in enumerate(acts): threading.Thread(target=work, args=(act, {seed} + n), daemon=True).start()
while not torn and not faults: time.sleep(.01); said('.' if done[0] > 20 else '')
said('TORN %r' % torn[0] if torn else 'FAULT %s' % sorted(faults))
os._exit(1)
'''


def crowd(socket, acts, seed):
    return Client(socket, CROWD.format(rows=ROWS, acts=acts, seed=seed))


def at_the_primary(node, seed):
    return crowd(node.socket, '[writes, reads, reads]', seed)


def at_the_replica(node, seed):
    return crowd(node.socket, '[reads, reads]', seed)


def ended_well(client):
    """It goes on until it is killed: it has said nothing but that it works."""
    same(client.process.poll(), None, 'how a client ended')
    client.process.kill()
    said, errors = client.process.communicate()
    same((said.strip('.'), errors), ('', ''), 'what a client said')
    return bool(said)


def no_reader_sees_two(mode):
    chosen = random.Random(7)
    with Node() as node, Node(following=node) as replica:
        made = in_mode(node.socket, mode)
        made.execute('begin')
        made.executemany('insert into t values(?, 0, zeroblob(200))', [(it,) for it in range(ROWS)])
        made.execute('commit')
        node.level(replica)
        starts = [(at_the_primary, node), (at_the_primary, node), (at_the_replica, replica)]
        clients = [start(it, 100 * turn) for turn, (start, it) in enumerate(starts)]
        worked, turn, before, end = 0, 0, node.position().txid, time.monotonic() + SECONDS
        try:
            while time.monotonic() < end and (turn < TURNS or not worked or node.position().txid == before):
                time.sleep(chosen.random() * (.4 + turn / 50))  # later ones live longer, for a slow machine
                which = chosen.randrange(len(starts))
                worked += ended_well(clients[which])
                start, it = starts[which]
                clients[which] = start(it, 1000 * turn)
                turn += 1
            for client in clients:
                worked += ended_well(client)
        finally:
            for client in clients:
                client.kill()
        last = until(lambda: same_numbers(node), 'the last client\'s locks go')
        holds(last > 0 and worked, 'transactions were committed, and clients came to work before they were killed')
        seen = seen_by(made)
        node.level(replica)
        same(same_numbers(replica), last, 'the number at the replica')
        node.sound(seen)


def same_numbers(node):
    reader = connect(node.socket)
    least, most, rows = reader.execute('select min(b), max(b), count(*) from t').fetchone()
    same((least, rows), (most, ROWS), 'the rows at the end')
    reader.close()
    return most


run(in_each_mode(('delete', 'wal'), no_reader_sees_two=no_reader_sees_two))
