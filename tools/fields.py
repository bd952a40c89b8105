#!/usr/bin/env python3
"""fields.py: writes include/zilborteka.h from its template zilborteka.h.in: the fields of C's struct zb_state, from the list in crates/zilborteka/entries.txt.
It fails where that list has not the fields of Rattle's struct Device, in their order and of their types; the numbers of the cache have the name `cache` in C.
In the template
  @each[{member}]  stands for the members of the C struct, with the comments of entries.txt, one line each
  @size            stands for how many bytes the device has
The first line of what is written says where it comes from. It is a part of tools/generate."""
import re

import sources

NAMES_IN_C = {'numbers': 'cache'}


def members(found):
    """The fields as members of a C struct, the comments in one column."""
    spelled = [f'{"uint" + f.element[1:] + "_t":8} {f.name}' + (f'[ZB_{f.size}]' if f.size else '') + ';' for f in found]
    widest = max(len(text) for text, f in zip(spelled, found) if f.comment)
    return [f'{text:{widest}} /* {f.comment} */' if f.comment else text for text, f in zip(spelled, found)]


found = sources.fields('crates/zilborteka/entries.txt')
listed = [(f.name, f'{f.element}x{f.size}' if f.size else f.element) for f in found]
device = [(NAMES_IN_C.get(name, name), kind) for name, kind in sources.members_of('crates', 'Device')]
assert listed == device, f'entries.txt has {listed}, Device {device}'
first, _, rest = open('include/zilborteka.h.in').read().partition('\n')
rest = re.sub(r'^( *)@each\[\{member\}\]$', lambda m: '\n'.join(m.group(1) + x for x in members(found)), rest, flags=re.M)
rest = rest.replace('@size', str(sources.bytes_of('crates', found)))
with open('include/zilborteka.h', 'w') as file:
    file.write(f'{first} Written by tools/fields.py from zilborteka.h.in.\n{rest}')
