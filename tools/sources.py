"""What tools/fields.py reads: the fields of the device, of the list crates/zilborteka/entries.txt and of the structs of Rattle sources."""
import collections
import functools
import os
import re

Field = collections.namedtuple('Field', 'name element size comment')
WIDTHS = {'u8': 1, 'u16': 2, 'u32': 4, 'u64': 8}


@functools.cache
def text_of(path):
    with open(path) as file:
        return file.read()


def members_of(crates, name):
    """The fields of a struct of Rattle with those of its own structs in their places, in their order: names and types, where a type is u16 or u32xPLACES."""
    files = sorted(f'{crates}/{c}/src/lib.rt' for c in os.listdir(crates))
    body = next(m.group(1) for f in files if os.path.exists(f) for m in [re.search(r'^pub struct ' + name + r' \{\n(.*?)^\}', text_of(f), re.M | re.S)] if m)
    for field, kind in re.findall(r'^    pub (\w+): (.*),$', body, re.M):
        array = re.fullmatch(r'\[(\w+); numbers::(\w+)\]', kind)
        if array or kind in WIDTHS:
            yield field, f'{array.group(1)}x{array.group(2)}' if array else kind
        else:
            yield from members_of(crates, kind)


def lines(file):
    for line in text_of(file).splitlines():
        text, _, comment = line.partition('#')
        if text.strip():
            yield text.strip(), text.split(), comment.strip()


def fields(file):
    """The fields in a list, in their order; a size is a number or the name of a constant of the crate numbers."""
    found = []
    for _, words, comment in lines(file):
        if words[0] == 'field':
            element, _, size = words[2].partition('x')
            found.append(Field(words[1], element, size, comment))
    return found


def number(crates, size):
    """A size as a number."""
    if size.isdigit():
        return int(size)
    constants = dict(re.findall(r'^pub const (\w+): usize = (.*);', text_of(f'{crates}/numbers/src/lib.rt'), re.M))
    return eval(re.sub('[A-Z_]+', lambda m: str(number(crates, m.group())), constants[size]))


def bytes_of(crates, found):
    """How many bytes a struct of these fields has in C: each at a multiple of its element's size, the whole a multiple of the largest."""
    end = 0
    for f in found:
        width = WIDTHS[f.element]
        end = -(-end // width) * width + width * (number(crates, f.size) if f.size else 1)
    widest = max(WIDTHS[f.element] for f in found)
    return -(-end // widest) * widest
