#!/usr/bin/env python3
"""facts.py LOG...: writes into the first line of each wrong program where the check refuses it, from the logs that `rt ci`, `rt must-fail` or `tools/trials` printed:
the promise or the law whose proof breaks first. Run it at the top of the repository. A wrong program that no log names, or whose refusal names no fact, keeps its line. The trials of a crate are sorted by name."""
import os
import re
import sys

import edits

SAID = re.compile(r'must-fail (\w+)/([\w-]+)\.edit: refused, as it must be: (?:note: )?(?:\./)?(specs|proofs)/(\S+?)\.antt:\d+:\d+: error: `([^`]+)`', re.M)


def fact(part, path, name):
    """What breaks, as a first line says it: a goal of a function's proof, or a law of a file."""
    *above, file = path.split('/')
    if file in ('Answers', 'Invariants'):
        return f'the promise of `{above[-1]}`, at `{name}` of its proof'
    return f'`{name}` of {part}/{path}.antt'


def with_fact(text, first):
    lines = text.split('\n')
    # what is said already, with further goals behind it, stays
    if lines[0].startswith(f'{edits.FIRST} {first}'):
        return text
    return '\n'.join([f'{edits.FIRST} {first}.'] + lines[lines[0].startswith(edits.FIRST):])


found = {}
for log in sys.argv[1:]:
    for crate, name, part, path, goal in SAID.findall(open(log).read()):
        found[crate, name] = fact(part, path, goal)
for crate in sorted(os.listdir('crates')):
    for name, text in edits.gate_edits_of(crate).items():
        now = with_fact(text, found[crate, name]) if (crate, name) in found else text
        if now != text:
            with open(f'crates/{crate}/must-fail/{name}.edit', 'w') as file:
                file.write(now)
    trials = edits.trials_of(crate)
    now = {name: with_fact(text, found[crate, name]) if (crate, name) in found else text for name, text in trials.items()}
    if now != trials:
        edits.write_trials(crate, now)
