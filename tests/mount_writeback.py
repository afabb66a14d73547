#!/usr/bin/python3
"""Writers of a mounted database in WAL mode while the system writes its dirty pages back and drops its caches: no row is
lost, and nothing hangs.

At most: 600 seconds.
Seen to fail: with the shared memory opened for direct I/O (notify: `disk I/O error`)"""
import os
import subprocess
import time

from support import Node, Skipped, holds, length, run, same, until
from support.mount import Mount, ended, in_each_way, need_mount

SECONDS = length(3, 20)
DROP = '/proc/sys/vm/drop_caches'
CODE = '''
c = connect()
c.execute('pragma wal_autocheckpoint=0')
done = 0
while not os.path.exists({stop!r}):
    c.execute('insert into t(b) values(randomblob(3000))')
    done += 1
    c.execute('select count(*) from t').fetchone()
print(done)
'''


def written_back(way):
    if not os.access(DROP, os.W_OK):
        raise Skipped('only root drops the caches')
    with Node() as node, Mount(node, way) as mount:
        watching = mount.in_mode('wal')
        stop = os.path.join(node.folder, 'stop')
        writers = [mount.client(CODE.format(stop=stop)) for _ in range(3)]
        begin, rounds = time.monotonic(), 0
        while time.monotonic() < begin + SECONDS or rounds < 5 or (rows_of(watching) < 20 and rounds < 200):
            subprocess.run(['sync', '-f', mount.folder], check=True)
            with open(DROP, 'w') as file:
                file.write('3')
            rounds += 1
            time.sleep(0.1)
        open(stop, 'w').close()
        ends = [ended(writer) for writer in writers]
        holds(all(status == 0 for status, _ in ends), str(ends))
        rows = rows_of(watching)
        same(rows, sum(int(said) for _, said in ends), 'rows of all writers')
        same(watching.execute('pragma integrity_check').fetchall(), [('ok',)], 'integrity')
        watching.close()


def rows_of(connection):
    return connection.execute('select count(*) from t').fetchone()[0]


need_mount()
run(in_each_way(written_back=written_back))
