"""A sheet or a host list as text; `parse` of it gives the same sheet."""
from .codes import CALLEES, EXPORTS, FLAGS, HOOKS, HOST_KINDS, MODIFIERS, OPS, REF, SHAPES, VALUE_TYPES, slots, unread
from .labels import Labels, firsts
from .module import Array, Cell, Func, Hosts, Items, Iter, Map, Plain, Struct, Text

WIDTH, LONGEST = 110, 120
ESCAPES = {'"': '\\"', '\\': '\\\\', '\n': '\\n', '\r': '\\r', '\t': '\\t', '\b': '\\b', '\f': '\\f'}

# beyond the basic plane \u takes two halves
def escaped(c):
    if c in ESCAPES or c.isprintable():
        return ESCAPES.get(c, c)
    half = c.encode('utf-16-be')
    return ''.join(f'\\u{half[k:k + 2].hex()}' for k in range(0, len(half), 2))

def quoted(text):
    return f'"{"".join(map(escaped, text))}"'

# a list in lines of the text's width, each beginning with its word; none for an empty list
def wrapped(word, members):
    lines, line = [], ''
    for member in members:
        if line and len(line) + len(member) > WIDTH:
            lines.append(line)
            line = ''
        line += (', ' if line else f'  {word} ') + member
    return lines + [line] if line else lines

class Printer:
    def __init__(self, module):
        self.module, self.lines = module, []
        self.labels = Labels(module).of
        # the texts that stand for a string: of equal ones the first, and none so long that using it often would fill the text
        first = firsts(module.strings)
        texts = [quoted(text) if first[text] == number else '' for number, text in enumerate(module.strings)]
        self.texts = [text if len(text) <= LONGEST else '' for text in texts]
        # which were written as text so far, in that order
        self.used = {}

    def string(self, number):
        if number >= len(self.texts) or not self.texts[number]:
            return str(number)
        self.used.setdefault(number)
        return self.texts[number]

    def value(self, word):
        return VALUE_TYPES[word] if word < len(VALUE_TYPES) else f'ref {self.labels("type", word - REF)}'

    def values(self, words):
        return ', '.join(map(self.value, words))

    def part(self, items):
        if self.lines and items:
            self.lines.append('')
        self.lines += items

    # the texts are listed where using them in this order would not give the sheet's list
    def sheet(self):
        m = self.module
        for k, t in enumerate(m.types):
            self.type(k, t)
        self.part([self.const(k, c) for k, c in enumerate(m.consts)])
        self.part([line for k, i in enumerate(m.imports) for line in self.import_(k, i)])
        self.part([self.global_(k, g) for k, g in enumerate(m.globals)])
        for k, f in enumerate(m.functions):
            self.part(self.function(k, f))
        self.part([self.hook(h) for h in m.hooks])
        self.part([f'start {self.labels("function", m.start - 1)}'] if m.start else [])
        self.part([f'export {EXPORTS[e.kind]} {self.string(e.name)} {self.labels(EXPORTS[e.kind], e.index)}' for e in m.exports])
        inner, self.lines = self.lines, ['sheet' if m.edition == 1 else f'sheet edition {m.edition}']
        if list(self.used) != list(range(len(m.strings))):
            self.part(['strings', *(f'  {quoted(text)}' for text in m.strings)])
        self.part(inner)
        return self.lines

    def type(self, k, t):
        head = f'type {self.labels("type", k)} {type(t).__name__.lower()}'
        if isinstance(t, Struct):
            parent = f' parent {self.labels("type", t.parent - 1)}' if t.parent else ''
            lines = [f'{head} {self.string(t.name)}{parent}']
            lines += [f'  field {self.string(name)} {self.value(v)}' for name, v in t.fields]
            return self.part(lines + [f'  method {self.string(name)} {self.labels("function", f)}' for name, f in t.methods])
        if isinstance(t, Func):
            line = f'{head}({self.values(t.params)})' + (f' -> {self.values(t.results)}' if t.results else '')
        elif isinstance(t, (Map, Iter)):
            line = f'{head} {self.value(t.key)} -> {self.value(t.value)}'
        else:
            line = f'{head} {self.value(t.item)}' if isinstance(t, (Array, Cell)) else head
        apart = k == 0 or isinstance(self.module.types[k - 1], Struct)
        return self.part([line]) if apart else self.lines.append(line)

    def const(self, k, c):
        head = f'const {self.labels("constant", k)}'
        label = lambda number: self.labels('constant', number)
        if isinstance(c, Plain):
            return f'{head} plain {c.low}' + (f' {c.high}' if c.high else '')
        if isinstance(c, Text):
            return f'{head} string {self.string(c.string)}'
        if isinstance(c, Items):
            return f'{head} array {", ".join(map(label, c.members))}'.rstrip()
        return f'{head} map {", ".join(f"{label(key)} -> {label(value)}" for key, value in c.pairs)}'.rstrip()

    def import_(self, k, i):
        head = f'import {self.labels("import", k)} {self.string(i.module)} {self.string(i.name)} {self.labels("type", i.sig)}'
        return [head, *self.params(i.params)]

    def params(self, params):
        if params is None:
            return []
        return wrapped('parameters', [self.param(flags, name) for flags, name in params]) or ['  parameters']

    def param(self, flags, name):
        words = [word for bit, word in enumerate(FLAGS) if flags >> bit & 1] if flags < 4 else [f'flags={flags}']
        return ' '.join([*words, self.string(name - 1) if name else '-'])

    def global_(self, k, g):
        return f'global {self.labels("global", k)} {self.value(g.type)}' + (f' = {self.labels("constant", g.const - 1)}' if g.const else '')

    def hook(self, h):
        name = HOOKS[h.hook] if h.hook < len(HOOKS) else h.hook
        return f'hook {name} {CALLEES[h.callee]} {self.labels(CALLEES[h.callee], h.index)}'

    def function(self, k, f):
        lines = [f'function {self.labels("function", k)} {self.labels("type", f.sig)}']
        lines += wrapped('registers', map(self.value, f.registers)) + self.params(f.params)
        lines += [f'  shape {", ".join(self.member(*member) for member in shape)}'.rstrip() for shape in f.shapes]
        lines += wrapped('captures', map(self.value, f.captures)) + wrapped('names', map(self.string, f.names))
        lines += wrapped('type-refs', (self.labels('type', t) for t in f.type_refs))
        code = Code(self, f)
        lines += [f'  handler {code.target(s)} to {code.target(e)} goto {code.target(t)} catch r{c}' for s, e, t, c in f.handlers]
        lines += [f'  table {", ".join(map(code.target, targets))}{" " if targets else ""}default {code.target(d)}' for targets, d in f.tables]
        return lines + code.lines()

    def member(self, kind, name):
        if kind == 1:
            return f'named {self.string(name)}'
        return (SHAPES[kind] if kind < len(SHAPES) else f'kind={kind}') + (f' name={name}' if name else '')

class Code:
    """The code of a function: instructions, and labels of the positions that are mentioned."""
    def __init__(self, printer, function):
        self.printer, self.function, self.marked = printer, function, set()
        # the first place of each member, since a member written by its name stands for that
        self.firsts = {'name': firsts(function.names), 'type ref': firsts(function.type_refs)}

    def target(self, position):
        if position > len(self.function.code):
            return str(position)
        self.marked.add(position)
        return f'p{position}'

    def lines(self):
        shown = [f'    {self.instruction(*words)}' for words in self.function.code]
        lines = []
        for position in range(len(shown) + 1):
            lines += [f'  p{position}:'] if position in self.marked else []
            lines += shown[position:position + 1]
        return lines

    def listed(self, kind, place):
        members = self.function.names if kind == 'name' else self.function.type_refs
        if place >= len(members) or self.firsts[kind][members[place]] != place:
            return str(place)
        shown = self.printer.string(members[place]) if kind == 'name' else self.printer.labels('type', members[place])
        return str(place) if shown.isdigit() else shown

    def operand(self, kind, number):
        if kind == 'register':
            return f'r{number}'
        if kind in ('table', 'capture', 'shape'):
            return f'{kind}{number}'
        if kind == 'target':
            return self.target(number)
        return self.listed(kind, number) if kind in self.firsts else self.printer.labels(kind, number)

    def instruction(self, low, high):
        op, found = OPS[low & 255], slots(low, high)
        words = [op.name] + [self.operand(kind, found[slot]) for slot, kind in op.fields]
        if found['d']:
            words.append(f'{op.modifier or "d"}={MODIFIERS.get(op.modifier, {}).get(found["d"], found["d"])}')
        return ' '.join(words + [f'{slot}={found[slot]}' for slot in unread(low & 255) if found[slot]])

def host_lines(hosts):
    return ['hosts', '', *(f'host {quoted(h.module)} {quoted(h.name)}' + (f' {HOST_KINDS[h.kind]}' if h.kind else '') for h in hosts.hosts)]

def show(found):
    lines = host_lines(found) if isinstance(found, Hosts) else Printer(found).sheet()
    return '\n'.join(lines) + '\n'
