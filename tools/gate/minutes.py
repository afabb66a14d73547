"""What each crate's proofs took of the processors: noted while rt ci runs, in out/minutes.json, and told by tools/measure gate.

A proof is one process of rattle that rt starts, and its time is read from /proc every second, so that up to a second of each is lost. What an
earlier run noted of a crate stays until it is proved anew."""
import collections
import json
import os
import re
import threading
import time

from . import copies, cores

ROOT = os.path.dirname(os.path.dirname(os.path.dirname(os.path.abspath(__file__))))
NOTES = f'{ROOT}/out/minutes.json'
TICKS = os.sysconf('SC_CLK_TCK')
KINDS = ('proof', 'tests', 'seed', 'edits')
EVERY = 1.0


class Watch:
    """Notes what the processes that rt starts take, from the `with` on until its end."""

    def __init__(self, rt):
        self.rt, self.seen, self.over, self.thread = rt, {}, threading.Event(), threading.Thread(target=self.run, daemon=True)

    def __enter__(self):
        self.thread.start()
        return self

    def __exit__(self, *_):
        self.over.set()
        self.thread.join()
        note(self.taken())

    def run(self):
        while not self.over.is_set():
            for pid in filter(str.isdigit, os.listdir('/proc')):
                found = proof_of(pid, self.rt)
                if found:
                    self.seen[pid, found[0], found[1]] = found[2]
            self.over.wait(EVERY)

    def taken(self):
        """Seconds by crate and kind, and of the edits how many."""
        sums = collections.defaultdict(lambda: collections.Counter())
        for (_, crate, kind), seconds in list(self.seen.items()):
            sums[crate][kind] += seconds
            sums[crate]['tried'] += kind == 'edits'
        return sums


def proof_of(pid, rt):
    """The crate, the kind and the seconds so far of a process, where it is a proof that rt started."""
    try:
        with open(f'/proc/{pid}/stat', encoding='ascii', errors='replace') as file:
            name, _, rest = file.read().partition('(')[2].rpartition(')')
        fields = rest.split()
        if name != 'rattle' or int(fields[1]) != rt:
            return None
        with open(f'/proc/{pid}/cmdline', encoding='utf-8', errors='replace') as file:
            words = file.read().split('\0')
        return words[words.index('--crate-name') + 1], kind_of(words, os.readlink(f'/proc/{pid}/cwd')), sum(map(int, fields[11:15])) / TICKS
    except (OSError, ValueError, IndexError):
        return None


def kind_of(words, folder):
    """A proof of the crate (and, of a program, what compiles it), of its tests, of the crate as its edits begin with it, or of an edit."""
    if re.search(r'/rt-edit-', folder):
        kept = words[words.index('--incremental') + 1] if '--incremental' in words else ''
        return 'seed' if kept.endswith('/seed') else 'edits'
    return 'tests' if '--test' in words else 'proof'


def note(taken):
    """Adds what a run took to the notes; of a crate the newest figure of each kind stays."""
    noted = notes()
    noted['machine'] = f'{cores.cores()} cores, {cores.threads()} threads'
    noted['date'] = time.strftime('%d %B %Y').lstrip('0')
    for crate, found in taken.items():
        noted['crates'].setdefault(crate, {}).update({kind: round(seconds, 1) for kind, seconds in found.items() if seconds})
    os.makedirs(os.path.dirname(NOTES), exist_ok=True)
    with open(f'{NOTES}.new', 'w', encoding='utf-8') as file:
        json.dump(noted, file, indent=1)
    os.replace(f'{NOTES}.new', NOTES)


def notes():
    try:
        with open(NOTES, encoding='utf-8') as file:
            return json.load(file)
    except (OSError, ValueError):
        return {'crates': {}}


def table(uses):
    """The notes as a table of minutes, of the crates and what each uses; a crate that was always kept has none."""
    noted, sums = notes(), collections.Counter()
    lines = [f'Processor minutes at one job a proof: {noted.get("machine", "nothing measured yet")}, {noted.get("date", "no date")}.', '',
             '| crate | proof | its tests | before its edits | edits | crates that stand on it |', '|---|---|---|---|---|---|']
    for crate in uses:
        found = noted['crates'].get(crate, {})
        sums.update({kind: found.get(kind, 0) for kind in KINDS})
        tried = f' ({found["tried"]:.0f})' if found.get('edits') else ''
        woken = sum(crate in copies.below(it, uses) for it in uses)
        lines.append(f'| {crate} | {" | ".join(said(found.get(kind)) for kind in KINDS)}{tried} | {woken} |')
    lines.append(f'| together, {sum(sums.values()) / 60:.0f} | {" | ".join(said(sums[kind]) for kind in KINDS)} | |')
    return '\n'.join(lines)


def said(seconds):
    return f'{seconds / 60:.1f}' if seconds else ''


def write_between(path, text):
    """Puts the text between the two marks of a file."""
    with open(path, encoding='utf-8') as file:
        before, begin, rest = file.read().partition('<!-- minutes: tools/measure gate PATH writes what follows -->\n')
    _, end, after = rest.partition('<!-- minutes end -->')
    if not end:
        raise SystemExit(f'{path} lacks the two marks of the minutes')
    with open(path, 'w', encoding='utf-8') as file:
        file.write(f'{before}{begin}\n{text}\n\n{end}{after}')
