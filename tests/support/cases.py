"""A script's cases: one line for each, and the status at the end."""
import concurrent.futures
import fnmatch
import os
import sys
import traceback

from . import places
from .outcomes import Skipped, Wrong

FAILED, NOTHING_RAN = 1, 77


def holds(fact, what):
    if not fact:
        raise Wrong(what)


def same(got, wanted, what):
    if got != wanted:
        raise Wrong(f'{what}: {short(got)} where {short(wanted)} was wanted')


def refuses(call, kind, what):
    """Runs what is to be refused, and answers the exception."""
    try:
        call()
    except kind as refused:
        return refused
    raise Wrong(f'{what}: not refused')


def short(value):
    text = repr(value)
    return text if len(text) < 300 else f'{text[:200]} .. ({len(text)} characters)'


def length(usual, long):
    """How many turns, seconds or points a script takes: those of the gate, or more where LITEFS_LONG is set."""
    return long if os.environ.get('LITEFS_LONG') else usual


def skip_all(reason):
    """Ends a script of which nothing can run."""
    print(f'skipped: {one_line(reason)}', flush=True)
    sys.exit(NOTHING_RAN)


def run(cases, at_once=1):
    """Runs the cases, calls by name, that fit a pattern of the command line, all where there is none; ends the script. `at_once`: so many
    at a time, where they mostly wait."""
    patterns = sys.argv[1:] or ['*']
    chosen = [name for name in cases if any(fnmatch.fnmatch(name, it) for it in patterns)]
    if not chosen:
        sys.exit(f'no case fits {" ".join(patterns)}')
    try:
        places.program()
    except FileNotFoundError as lacking:
        sys.exit(str(lacking))
    if at_once == 1:
        ends = [one(name, cases[name]) for name in chosen]
    else:
        with concurrent.futures.ThreadPoolExecutor(at_once) as lanes:
            ends = list(lanes.map(lambda name: one(name, cases[name]), chosen))
    sys.exit(FAILED if 'failed' in ends else 0 if 'passed' in ends else NOTHING_RAN)


def one(name, call):
    how, why = tried(call)
    sys.stdout.write(f'{how}: {name}' + (f': {one_line(why)}' if why else '') + '\n')
    sys.stdout.flush()
    return how


def tried(call):
    try:
        call()
    except Skipped as skipped:
        return 'skipped', str(skipped)
    except Exception as wrong:
        if not isinstance(wrong, Wrong):
            traceback.print_exc()
        return 'failed', str(wrong) if isinstance(wrong, Wrong) else f'{type(wrong).__name__}: {wrong}'
    return 'passed', ''


def one_line(text):
    return ' / '.join(text.strip().splitlines())[:1000]
