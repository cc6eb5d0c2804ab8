"""The families of a sheet: each struct that has no parent, with all that descend from it by declared parents."""
from .blocks import MOST_ON_CHAIN
from .labels import Labels
from .module import Struct
from .show import quoted

# of a struct's own fields, or of types, and of a name so many are shown
FIELDS, LONGEST = 24, 60

class Families:
    def __init__(self, module):
        self.module, self.types = module, module.types
        self.limit = MOST_ON_CHAIN[module.edition]
        self.labels = Labels(module).lists['type']
        self.structs = [t for t, made in enumerate(self.types) if isinstance(made, Struct)]
        self.children = {t: [] for t in self.structs}
        self.roots = [t for t in self.structs if not self.types[t].parent]
        for t in self.structs:
            if self.parent(t) in self.children:
                self.children[self.parent(t)].append(t)
        # (type, depth) in the order of the numbering walk
        self.walk = self.walked()
        self.depth = dict(self.walk)

    # the declared parent's number, which need not exist
    def parent(self, t):
        return self.types[t].parent - 1

    def walked(self):
        out, todo = [], [(root, 0) for root in reversed(self.roots)]
        while todo:
            t, depth = todo.pop()
            out.append((t, depth))
            todo += [(child, depth + 1) for child in reversed(self.children[t])]
        return out

    def text(self, number):
        return self.module.strings[number] if number < len(self.module.strings) else None

    # a field's name as people read it: as it is where it is one plain word or more, else as the text form has it
    def field(self, number):
        text = self.text(number)
        if text is None:
            return f'string {number}'
        cut = shortened(text)
        return cut if cut.isprintable() and cut.strip() == cut and cut and ',' not in cut else quoted(cut)

    # a struct's whole name; rule 2 holds of an accepted sheet, so that it is there
    def called(self, t):
        return self.text(self.types[t].name)

    def name(self, t):
        text = self.called(t)
        return self.labels[t] if text is None or text == self.labels[t] else self.field(self.types[t].name)

    # a type and those above it, its root last; none for what is in no family
    def chain(self, t):
        out = [t] if t in self.depth else []
        for _ in range(self.depth.get(t, 0)):
            out.append(self.parent(out[-1]))
        return out

    # whether a type's fields begin with its parent's, as stored
    def begins(self, t):
        parent = self.types[self.parent(t)].fields if t in self.depth and self.types[t].parent else []
        return self.types[t].fields[:len(parent)] == parent

    # the fields that a type has beside its parent's
    def own(self, t):
        fields = self.types[t].fields
        below = len(self.types[self.parent(t)].fields) if self.depth.get(t) and self.begins(t) else 0
        return [self.field(name) for name, _ in fields[below:]]

    # what the loader will refuse
    def remark(self, t):
        if not self.begins(t):
            return "its fields do not begin with its parent's"
        return f'more than {self.limit} types on its chain' if self.depth.get(t, 0) >= self.limit else ''

    # whether rule 3 is broken; which fault the loader finds first is its to say
    def refused(self):
        return bool(self.apart()) or any(map(self.remark, self.depth))

    # structs outside every family, each with the reason
    def apart(self):
        rest = [t for t in self.structs if t not in self.depth]
        cycle = self.on_cycle(rest)
        return [(t, self.reason(t, cycle)) for t in rest]

    def reason(self, t, cycle):
        parent = self.parent(t)
        if parent >= len(self.types):
            return f'its parent, type {parent}, does not exist'
        if parent not in self.children:
            return f'its parent {self.labels[parent]}, type {parent}, is no struct'
        if t in cycle:
            return 'it is its own parent' if parent == t else f'its parents go in a circle of {cycle[t]} types'
        return f'its parent {self.labels[parent]}, type {parent}, is in no family'

    # by type, how many are on its circle of parents
    def on_cycle(self, rest):
        state, out = {}, {}
        for start in rest:
            path, t = [], start
            while t in self.children and t not in state:
                state[t] = start
                path.append(t)
                t = self.parent(t)
            if t in self.children and state[t] == start:
                ring = path[path.index(t):]
                out.update(dict.fromkeys(ring, len(ring)))
        return out

def shortened(text):
    return text[:LONGEST] + ('…' if len(text) > LONGEST else '')

# the first of them, and how many more there are
def some(members):
    return members[:FIELDS] + ([f'and {len(members) - FIELDS} more'] if len(members) > FIELDS else [])

def plural(count, what):
    return f'{count} {what}' if count == 1 else f'{count} {what}s'

def counted(families, t):
    made = families.types[t]
    methods = f', {plural(len(made.methods), "method")}' if made.methods else ''
    return plural(len(made.fields), 'field') + methods

# own fields, or that there is none; in brackets what is wrong
def line(families, t):
    own = some(families.own(t))
    sign = '+ ' if families.types[t].parent and own else ''
    parts = [f'{families.name(t)} (type {t}, {counted(families, t)})']
    parts += [f'{sign}{", ".join(own)}'] if own else []
    remark = families.remark(t)
    return ': '.join(parts) + (f' [{remark}]' if remark else '')

# each type with the branches before it: of each ancestor below the root whether another child of the same parent follows
def branches(families):
    open_ = []
    last = {children[-1] for children in families.children.values() if children}
    for t, depth in families.walk:
        if depth == 0:
            yield t, ''
            open_ = []
            continue
        # branches over the longest chain that is accepted are not drawn
        open_ = open_[:min(depth, families.limit) - 1]
        before = ''.join('│  ' if follows else '   ' for follows in open_)
        yield t, f'{before}{"└─" if t in last else "├─"} '
        open_.append(t not in last)

# an empty line between families
def tree(families):
    lines = []
    for t, before in branches(families):
        lines += [''] if lines and not before else []
        lines.append(before + line(families, t))
    return lines

# structs in no family, each with the reason
def outside(families):
    apart = families.apart()
    return ['in no family:'] * bool(apart) + [f'  {families.name(t)} (type {t}, {counted(families, t)}): {reason}' for t, reason in apart]

# parts with an empty line between them
def joined(*parts):
    return '\n'.join('\n'.join([*part, '']) for part in parts if part) or 'no struct types\n'

def shown(module):
    families = Families(module)
    return joined(tree(families), outside(families))

# numbers in columns, then a text
def aligned(*cells):
    *numbers, last = cells
    return ''.join(f'{number:>8}' for number in numbers) + f'  {last}'

# each type with its depth, which is how long its chain is, from the roots down, those of one depth by their numbers
def by_depth(module):
    families = Families(module)
    lines = [aligned('depth', 'type', 'parent', 'family')] if families.walk else []
    for depth, t in sorted((depth + 1, t) for t, depth in families.walk):
        remark = families.remark(t)
        name = families.name(t) + (f' [{remark}]' if remark else '')
        lines.append(aligned(depth, t, families.parent(t) if depth > 1 else '', name))
    return joined(lines, outside(families))
