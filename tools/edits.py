"""What tools/trials, tools/facts.py and tools/names read of the wrong programs. Those that the gate tries are files, crates/NAME/must-fail/EDIT.edit, as `rt` wants them;
the others, the trials, stand in one file a crate, crates/NAME/trials.txt: a line `trial: EDIT`, behind it what a file EDIT.edit would have, and an empty line between two."""
import glob
import os
import re
import sys

TRIAL, FIRST, PAIRS = 'trial: ', 'Refused by', ('file: ', 'old: ', 'new:')
STYLE = re.compile(r'[a-z0-9]+(?:-[a-z0-9]+)*')


def crates_with_trials():
    return sorted(p.split('/')[1] for p in glob.glob('crates/*/trials.txt'))


def named(name, place):
    if not STYLE.fullmatch(name):
        sys.exit(f'{place}: the name of a wrong program is words and numbers in lower case with hyphens: {name}')
    return name


def trials_of(crate):
    """The trials of a crate by name, each as the text of an edit."""
    path = f'crates/{crate}/trials.txt'
    found, name = {}, None
    for number, line in enumerate(open(path).read().split('\n') if os.path.exists(path) else (), 1):
        place = f'{path}:{number}'
        if line.startswith(TRIAL):
            name = named(line[len(TRIAL):], place)
            if name in found or os.path.exists(f'crates/{crate}/must-fail/{name}.edit'):
                sys.exit(f'{place}: {crate} has another wrong program of this name: {name}')
            found[name] = ''
        elif line:
            first = name is not None and not found[name] and line.startswith(FIRST)
            if name is None or not first and not line.startswith(PAIRS):
                sys.exit(f'{place}: no line of a trial, which has its name, a first line from the log, and then file:, old: and new: lines')
            found[name] += line + '\n'
    return found


def write_trials(crate, trials):
    with open(f'crates/{crate}/trials.txt', 'w') as file:
        file.write('\n'.join(f'{TRIAL}{name}\n{trials[name]}' for name in sorted(trials)))


def gate_edits_of(crate):
    """The edits of a crate that the gate tries, by name."""
    paths = sorted(glob.glob(f'crates/{crate}/must-fail/*.edit'))
    return {named(os.path.basename(p)[:-len('.edit')], p): open(p).read() for p in paths}
