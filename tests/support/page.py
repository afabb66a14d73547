"""What of a page is run: its fenced blocks, and the words of CONTRIBUTING's table."""
import collections
import os
import re

from . import places
from .node import read

PAGES = {'OPERATING': 'docs/OPERATING.md', 'TROUBLESHOOTING': 'docs/TROUBLESHOOTING.md', 'CLIENTS': 'docs/CLIENTS.md',
         'COMMANDS': 'docs/COMMANDS.md', 'CONTRIBUTING': 'CONTRIBUTING.md'}
FENCED = r'^```(?P<kind>(?:sh|console)(?: mount| etcd)?)\n(?P<body>.*?)^```$'
PARTS = re.compile(rf'^#+ (?P<head>[^\n]*)$|{FENCED}|^(?P<row>\|[^\n]*\| (?:run|proves) \|)$', re.M | re.S)
TAKES_LONG = r'rt (ci|check|run|test|try|must-fail)\b.*|\./check( scripts| planted .*)?'
WORD = r'\brt [a-z-]+'
Part = collections.namedtuple('Part', 'kind text name')


def text_of(page):
    return read(f'{places.ROOT}/{PAGES[page]}').decode()


def parts(page):
    """The parts that are run, in order: their kind (`row` in a table), their text, and a name after the heading above."""
    found, heading, counts = [], 'top', collections.Counter()
    for it in PARTS.finditer(text_of(page)):
        if it['head']:
            heading = re.sub(r'\W+', '_', it['head'].lower()).strip('_')
            continue
        counts[heading] += 1
        found.append(Part(it['kind'] or 'row', it['body'] or it['row'], f'{page.lower()}-{heading}-{counts[heading]}'))
    return found


def steps(body):
    """The commands of a console block, each with what it is to write."""
    found = re.split(r'^\$ ', body, flags=re.M)[1:]
    return [(command, wanted.strip()) for command, _, wanted in (it.partition('\n') for it in found)]


def fits(got, wanted):
    pattern = '.*'.join(re.escape(it) for it in wanted.split('..'))
    return re.fullmatch(pattern, got.strip(), re.S) is not None


def commands(row):
    """The commands of a row of the table: what stands in backquotes in its second cell."""
    return re.findall('`([^`]+)`', row.split('|')[2])


def takes_long(command):
    """Whether the page may leave it out: it proves or builds, or is the run that this script is part of."""
    crate = re.fullmatch(r'\./check (\w+)', command)
    return bool(re.fullmatch(TAKES_LONG, command)) or bool(crate and os.path.isdir(f'{places.ROOT}/crates/{crate[1]}'))


def overlooked(page):
    """What of the page looks like a command and is none of its parts: other fences, indented blocks, words of rt that the table hasn't."""
    text = PARTS.sub('', text_of(page))
    listed = {it for part in parts(page) if part.kind == 'row' for it in re.findall(WORD, part.text)}
    said = re.findall(f'`({WORD})', text) if listed else []
    return re.findall(r'^(?:```|    +\S)[^\n]*', text, re.M) + [it for it in said if it not in listed]
