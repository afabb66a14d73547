#!/usr/bin/python3
"""Damaged data directories: each is refused by name with status 3, behind a line that says which file is damaged and the two numbers that
differ, and left as it is, byte by byte; and what a stop may leave, or what no file of the store is, is no damage. What is damage: crates/node_recovery, docs/FORMATS.md.

At most: 1200 seconds.
Seen to fail: a program that touches the directory before it refuses it ("the directory is as it was"), and one that takes every directory for
damaged (each harmless change is refused)."""
import contextlib
import os
import re
import shutil

from support import Node, connect, count, fill, holds, in_mode, insert, read, run, same

PAGE, ROWS, LATER = 4096, 30, 6


@contextlib.contextmanager
def stopped():
    """A node that was stopped: a large transaction, then small ones that write its first and last pages."""
    with Node() as node:
        made = in_mode(node.socket, 'delete', PAGE)
        made.execute('begin')
        for key in range(ROWS):
            made.execute(*insert(key, 2000))
        made.execute('commit')
        fill(made, range(100, 100 + LATER))
        made.close()
        node.kill()
        yield node


def files(folder):
    """The bytes of all files below, by path."""
    return {os.path.relpath(os.path.join(at, name), folder): read(os.path.join(at, name))
            for at, _, names in os.walk(folder) for name in names}


def refused(damage, file):
    """`file`: which one is damaged, of the log's files before."""
    with stopped() as node:
        log = [os.path.relpath(it, node.data) for it in node.log()]
        damage(node)
        before = files(node.data)
        status, said = node.outcome()
        same(status, 3, 'the status')
        line = f'litefs: damaged: dbs/app/{re.escape(file(log))}: ([0-9a-f]{{16}}) is wanted, ([0-9a-f]{{16}}) is there\n'
        numbers = re.fullmatch(f'{line}litefs: input refused: Damaged\n', said)
        holds(numbers and numbers[1] != numbers[2], f'what it says: {said}')
        same(files(node.data) == before, True, 'the directory is as it was')


def harmless(change):
    """The node comes back with all that was committed."""
    with stopped() as node:
        change(node)
        node.start()
        same(node.position().txid, 2 + LATER, 'the last transaction')
        made = connect(node.socket)
        same(count(made), ROWS + LATER, 'rows')
        same(made.execute('pragma integrity_check').fetchall(), [('ok',)], 'integrity')
        same(node.news(), [], 'its lines, but those of its starts')


def flipped(path, at):
    text = bytearray(read(path))
    text[at] ^= 1
    written(path, bytes(text))


def written(path, text):
    with open(path, 'wb') as file:
        file.write(text)


def appended(path, text):
    written(path, read(path) + text)


def in_log(number, at):
    """One bit of the log's file, counted from 0."""
    return lambda node: flipped(node.log()[number], at)


def in_database(page):
    """One bit of a page that the last transaction did not write."""
    return lambda node: flipped(f'{node.data}/database', PAGE * (page - 1) + 2000)


def swapped(node):
    one, other = node.log()[3:5]
    first, second = read(one), read(other)
    written(one, second)
    written(other, first)


def renamed(node):
    os.rename(node.log()[-1], f'{node.data}/ltx/{99:016x}-{99:016x}.ltx')


def of_another(node):
    """The last file of another database's log, of the same number."""
    with stopped() as other:
        shutil.copy(other.log()[-1], node.log()[-1])


def fourth(log):
    return log[3]


def last(log):
    return log[-1]


def database(_):
    """The log is lost: so the file with pages is there for nothing."""
    return 'database'


REFUSED = {
    'magic': (in_log(3, 0), fourth),
    'a_bit_of_a_page': (in_log(3, 300), fourth),
    'a_bit_of_the_file_sum': (in_log(3, -1), fourth),
    'a_bit_of_the_last_file': (in_log(-1, 300), last),
    'a_file_cut_short': (lambda node: os.truncate(node.log()[3], 300), fourth),
    'an_empty_file': (lambda node: os.truncate(node.log()[-1], 0), last),
    'a_byte_behind_a_file': (lambda node: appended(node.log()[3], b'x'), fourth),
    'a_gap': (lambda node: os.remove(node.log()[3]), lambda log: log[4]),
    'a_file_renamed': (renamed, lambda log: f'ltx/{99:016x}-{99:016x}.ltx'),
    'two_files_exchanged': (swapped, fourth),
    'a_file_of_another_database': (of_another, last),
    'no_snapshot': (lambda node: written(f'{node.data}/snapshot.ltx', b'x' * 1000), lambda log: 'snapshot.ltx'),
    'a_bit_of_the_database': (in_database(5), last),
    'the_database_cut_short': (lambda node: os.truncate(f'{node.data}/database', 3 * PAGE), last),
    'the_database_gone': (lambda node: os.remove(f'{node.data}/database'), last),
    'the_log_gone': (lambda node: shutil.rmtree(f'{node.data}/ltx'), database),
    'the_log_emptied': (lambda node: [os.remove(file) for file in node.log()], database),
}
HARMLESS = {
    'nothing': lambda node: None,
    'a_staged_file': lambda node: written(f'{node.data}/ltx/.staged', b'x' * 1000),
    'a_page_of_the_last_transaction_torn': lambda node: flipped(f'{node.data}/database', 2000),
    'pages_behind_the_end': lambda node: appended(f'{node.data}/database', b'x' * PAGE),
    'the_oldest_file_pruned': lambda node: os.remove(node.log()[0]),
    'files_of_others': lambda node: [written(f'{node.data}/{it}', b'x') for it in ('notes', 'ltx/notes.txt', 'ltx/1-1.ltx')],
}


run({**{f'refused-{name}': lambda given=given: refused(*given) for name, given in REFUSED.items()},
     **{f'harmless-{name}': lambda change=change: harmless(change) for name, change in HARMLESS.items()}})
