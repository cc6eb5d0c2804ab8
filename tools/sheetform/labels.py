"""Labels of what a sheet holds: from the names that stand in it where these are unique and well-formed, else a letter and the number."""
from collections import Counter
import re
from .module import Struct

# a hyphen stands only between two other characters, so that an arrow after a label is one
LETTER = 'A-Za-z_\u00c0-\u00d6\u00d8-\u00f6\u00f8-\u024f'
LONGEST = 60
LABEL = re.compile(f'[{LETTER}](?:[{LETTER}0-9]|-(?=[{LETTER}0-9]))*')

# the first place of each member
def firsts(members):
    out = {}
    for place, member in enumerate(members):
        out.setdefault(member, place)
    return out

# the first name of each, none where another has it too or where it could be a letter and a number
def chosen(letter, names):
    counts = Counter(name for name in names if name is not None)
    fits = lambda name: name is not None and counts[name] == 1 and len(name) <= LONGEST and LABEL.fullmatch(name) and not re.fullmatch(letter + '[0-9]+', name)
    return [name if fits(name) else f'{letter}{k}' for k, name in enumerate(names)]

class Labels:
    def __init__(self, module):
        self.module = module
        text = lambda number: module.strings[number] if number < len(module.strings) else None
        exported = [{}, {}, {}]
        for kind, name, index in module.exports:
            exported[kind].setdefault(index, text(name))
        structs = [text(t.name) if isinstance(t, Struct) else None for t in module.types]
        self.lists = dict(
            type=chosen('t', [name or exported[2].get(k) for k, name in enumerate(structs)]),
            function=chosen('f', [exported[0].get(k) for k in range(len(module.functions))]),
            constant=[f'c{k}' for k in range(len(module.consts))],
            # `global` is a word of the text form too, but never where a label stands
            **{'global': chosen('g', [exported[1].get(k) for k in range(len(module.globals))]),
               'import': chosen('i', [text(i.name) for i in module.imports])})

    # the label, or the number of what does not exist
    def of(self, kind, number):
        labels = self.lists[kind]
        return labels[number] if number < len(labels) else str(number)
