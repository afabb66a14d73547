#!/usr/bin/python3
"""Stops under real SQLite, in each journal mode: a client that is killed before each of its messages, and a node that is
killed under load and started again. Nothing that was acknowledged is lost, and what was not is whole or not there.

At most: 900 seconds.
Seen to fail: a node that doesn't rename every ninth file into its log: after the kill it doesn't start, since its log has a gap."""
from support import Client, Node, Relay, connect, count, holds, in_each_mode, in_mode, length, run, same, seen_by, until

ROWS, STEP, MOST = 25, length(13, 5), 400
WRITER = f'''
c.execute('pragma cache_size=5')
c.execute('begin')
for i in range({ROWS}): c.execute('insert into t(b,c) values(?,zeroblob(900))', (i,))
c.execute('commit')
said('A')
c.close()
'''
# (of a node that is gone SQLite says in WAL mode that it is busy)
ENDLESS = '''
import itertools
c.execute('pragma busy_timeout=500')
for i in itertools.count():
    c.execute('insert into t(b,c) values(?,?)', (i, os.urandom(700)))
    said('A')
'''
TURNS, ANSWERS = length(2, 5), 15


def client_dies(mode):
    """The writer is killed before one of its changing messages, then a later one, until it comes to its end."""
    with Node() as node:
        made = in_mode(node.socket, mode)
        made.execute('pragma wal_autocheckpoint=12')
        made.close()
        rows = 0
        for fatal in range(STEP, MOST, STEP):
            before = node.position().txid
            with Relay(node, fatal) as relay:
                status, said, _ = Client(relay.socket, WRITER).ended()
            other = connect(node.socket)
            commits = node.position().txid - before
            holds('A' not in said or commits == 1, f'an acknowledged commit is there (killed before message {fatal})')
            holds(commits in (0, 1), f'at most one transaction was made (killed before message {fatal})')
            rows += ROWS * commits
            same(count(other), rows, f'rows (killed before message {fatal})')
            other.execute('update t set b=b+1 where a=1')
            seen = seen_by(other)
            other.close()
            if status == 0:
                holds(fatal > 2 * STEP, 'the writer sent messages enough to be killed at')
                node.sound(seen)
                return
        holds(False, f'the writer ends in fewer than {MOST} messages')


def node_killed(mode):
    with Node() as node:
        in_mode(node.socket, mode).close()
        rows = 0
        for turn in range(TURNS):
            writer = Client(node.socket, ENDLESS)
            until(lambda: node.position().txid > rows + ANSWERS, 'the writer is at work')
            node.kill()
            said = writer.ended()[1]
            node.start()
            after = connect(node.socket)
            found = count(after)
            acknowledged = rows + len(said)
            holds(acknowledged <= found <= acknowledged + 1, f'{found} rows, {acknowledged} of them acknowledged')
            rows = found
            seen = seen_by(after)
            after.close()
        node.sound(seen)


run(in_each_mode(client_dies=client_dies, node_killed=node_killed))
