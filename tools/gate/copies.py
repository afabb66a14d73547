"""A copy of the tree with one crate and those below it, for rt ci: what passes there is kept on the machine as what passes in the whole tree is."""
import contextlib
import os
import shutil
import tempfile

TESTS_OF_OTHERS = ('must-fail', 'out')


@contextlib.contextmanager
def copied(root, name, edits=()):
    """The folder of a copy without tests of other crates and without edits, but those given, which stand in the crate's must-fail/."""
    # (rt removes folders so named of which the process is gone)
    with tempfile.TemporaryDirectory(prefix=f'rt-copy-{os.getpid()}-') as folder:
        uses = lines_of(root)
        wanted = [name, *below(name, uses)]
        for it in wanted:
            shutil.copytree(f'{root}/crates/{it}', f'{folder}/crates/{it}', ignore=shutil.ignore_patterns(*TESTS_OF_OTHERS))
        with open(f'{folder}/crates.txt', 'w', encoding='utf-8') as file:
            file.writelines(f'{it}: {" ".join(uses[it])}\n' for it in uses if it in wanted)
        shutil.copyfile(f'{root}/HANDLES', f'{folder}/HANDLES')
        if edits:
            os.mkdir(f'{folder}/crates/{name}/must-fail')
        for it in edits:
            shutil.copy(it, f'{folder}/crates/{name}/must-fail')
        # (rt ci runs at the top of a repository)
        os.mkdir(f'{folder}/.git')
        yield folder


def lines_of(root):
    """What crates.txt says that each crate names, in its order."""
    with open(f'{root}/crates.txt', encoding='utf-8') as file:
        said = (line.partition('#')[0].partition(':') for line in file)
        return {name.strip(): names.split() for name, colon, names in said if colon}


def below(name, uses):
    """The repository's crates that a crate stands on."""
    found = set()
    for it in uses[name]:
        if it in uses:
            found |= {it, *below(it, uses)}
    return found
