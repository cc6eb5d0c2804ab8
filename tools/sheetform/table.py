"""The linked table: its words as records and back, and in words with the names of the sheet."""
from collections import namedtuple
from .blocks import TOP, Broken
from .codes import HOOKS, REF, VALUE_TYPES
from .families import plural
from .labels import Labels
from .module import Array, Cell, Coroutine, Func, Iter, Many, Map, OneOf, Optional, Reader, Record, Word, pair
from .show import LONGEST, quoted

LinkedFunction = namedtuple('LinkedFunction', 'sig registers_count params_count registers result references captures names type_refs catches')
LinkedFunc = namedtuple('LinkedFunc', '')
LinkedStruct = namedtuple('LinkedStruct', 'parent fields references field_names methods')
LinkedImport = namedtuple('LinkedImport', 'sig place')
Span = namedtuple('Span', 'pre post length')
Linked = namedtuple('Linked', 'functions types imports hooks canon globals references spans')

# the first word of a linked table
FIRST = 2

def words(what):
    return Many(what, Word(what))

V = Word('value type')
FUNCTION = Record(LinkedFunction, Word('signature'), Word('registers'), Word('parameters'), words('register'), Word('result + 1'), words('reference'),
    words('capture'), words('name'), words('type ref'), Optional('catch table mark', words('position')))
STRUCT = Record(LinkedStruct, Word('parent + 1'), words('field'), words('reference'), Many('field name', pair(Word('name'), Word('slot'))),
    Many('method', pair(Word('name'), Word('function'))))
TYPE = OneOf('type kind', Record(LinkedFunc), STRUCT, Record(Array, V), Record(Map, V, V), Record(Cell, V), Record(Iter, V, V), Record(Coroutine))
SECTIONS = [Many('function', FUNCTION), Many('type', TYPE), Many('import', Record(LinkedImport, Word('signature'), Word('host function'))), words('hook'),
            words('canonical number'), words('global'), words('reference global'),
            Many('span', Record(Span, Word('pre'), Word('post'), Word('chain length')))]

# the records, or None where the words are no linked table
def parse_table(given):
    if len(given) < 10 or given[0] != FIRST or given[1] != len(given):
        return None
    r = Reader(given, len(given))
    r.at, found = 10, []
    try:
        for start, section in zip(given[2:10], SECTIONS):
            if r.at != start:
                return None
            found.append(section.read(r))
    except Broken:
        return None
    return Linked(*found) if r.at == len(given) else None

def table_words(linked):
    starts, out = [], []
    for section, members in zip(SECTIONS, linked):
        starts.append(10 + len(out))
        section.write(members, out)
    return [FIRST, 10 + len(out), *starts, *out]

# ranges of positions with the same handler
def ranges(catches):
    out = []
    for position, handler in enumerate(catches):
        if out and out[-1][2] == handler:
            out[-1][1] = position
        else:
            out.append([position, position, handler])
    return [f'{a if a == b else f"{a} to {b}"}: {"none" if handler == TOP else f"handler {handler}"}' for a, b, handler in out]

class Describer:
    def __init__(self, linked, module, hosts):
        self.linked, self.module, self.hosts = linked, module, hosts
        self.label = Labels(module).of

    def numbered(self, kind, number):
        label = self.label(kind, number)
        return f'{kind} {number}' if label == str(number) else f'{label} ({number})'

    def string(self, number):
        text = self.module.strings[number] if number < len(self.module.strings) else None
        return f'string {number}' if text is None or len(text) > LONGEST else quoted(text)

    # a func type in words, as the sheet declares it
    def signature(self, number):
        declared = self.module.types[number] if number < len(self.module.types) else None
        if not isinstance(declared, Func):
            return f'type {number}'
        results = f' -> {", ".join(map(self.value, declared.results))}' if declared.results else ''
        return f'func({", ".join(map(self.value, declared.params))}){results} ({number})'

    def value(self, word):
        if word < len(VALUE_TYPES):
            return VALUE_TYPES[word]
        return f'ref {self.label("type", word - REF)}' if word >= REF else f'value type {word}'

    # a row of the record, none where there is nothing
    def row(self, name, members):
        members = list(members)
        return [f'    {name:<12}{", ".join(members)}'] if members else []

    def values(self, name, members):
        return self.row(name, map(self.value, members))

    def function(self, k, f):
        counts = f'{plural(f.registers_count, "register")}, {plural(f.params_count, "parameter")}'
        result = self.value(f.result - 1) if f.result else 'none'
        out = [f'  {self.numbered("function", k)}: {self.signature(f.sig)}, {counts}, result {result}']
        out += self.values('registers', f.registers) + self.row('references', (f'r{r}' for r in f.references)) + self.values('captures', f.captures)
        out += self.row('names', map(self.string, f.names)) + self.row('type refs', (self.numbered('type', t) for t in f.type_refs))
        return out + (self.row('catch table', ranges(f.catches) or ['empty']) if f.catches is not None else [])

    def type(self, k, t):
        head = f'  {self.numbered("type", k)}:'
        if isinstance(t, LinkedStruct):
            parent = f' of {self.numbered("type", t.parent - 1)}' if t.parent else ''
            out = [f'{head} struct{parent}, {plural(len(t.fields), "field")}'] + self.values('fields', t.fields)
            out += self.row('references', (f'slot {slot}' for slot in t.references))
            out += self.row('field names', (f'{self.string(name)} slot {slot}' for name, slot in t.field_names))
            return out + self.row('methods', (f'{self.string(name)} {self.numbered("function", f)}' for name, f in t.methods))
        if isinstance(t, LinkedFunc):
            return [f'{head} func']
        return [f'{head} {type(t).__name__.lower()} {" -> ".join(map(self.value, t))}'.rstrip()]

    def import_(self, k, i):
        host = self.hosts.hosts[i.place] if i.place < len(self.hosts.hosts) else None
        said = f': {quoted(host.module)} {quoted(host.name)}{", the scheduler" if host.kind else ""}' if host else ''
        return f'  {self.numbered("import", k)}: {self.signature(i.sig)}, host function {i.place}{said}'

    def hook(self, k, word):
        kind, number = ('function', word // 2) if word % 2 else ('import', word // 2 - 1)
        return f'  {HOOKS[k] if k < len(HOOKS) else k}: {kind} {self.numbered(kind, number)}'

    # structs in the order of the walk, below each those inside its span
    def spans(self):
        structs = sorted((span, t) for t, span in enumerate(self.linked.spans) if span.pre != TOP)
        out, ends = [], []
        for (pre, post, length), t in structs:
            while ends and ends[-1] <= pre:
                ends.pop()
            out.append(f'  {"  " * len(ends)}{self.numbered("type", t)}: {pre} to {post}, chain length {length}')
            ends.append(post)
        rest = [self.label('type', t) for t, span in enumerate(self.linked.spans) if span.pre == TOP]
        return out + ([f'  no structs: {", ".join(rest)}'] if rest else [])

    def sections(self):
        linked = self.linked
        yield 'functions', [line for k, f in enumerate(linked.functions) for line in self.function(k, f)]
        yield 'types', [line for k, t in enumerate(linked.types) for line in self.type(k, t)]
        yield 'imports', [self.import_(k, i) for k, i in enumerate(linked.imports)]
        yield 'hooks', [self.hook(k, word) for k, word in enumerate(linked.hooks) if word]
        moved = [f'  {self.numbered("type", k)} is {self.numbered("type", c)}' for k, c in enumerate(linked.canon) if c != k]
        yield 'canonical numbers', moved or (['  each type is its own'] if linked.canon else [])
        yield 'globals', [f'  {self.numbered("global", k)}: {self.value(v)}' for k, v in enumerate(linked.globals)]
        yield 'reference globals', [f'  {", ".join(self.numbered("global", g) for g in linked.references)}'] if linked.references else []
        yield 'spans', self.spans()

def described(linked, module, hosts):
    out = []
    for name, lines in Describer(linked, module, hosts).sections():
        out += [name, *(lines or ['  none']), '']
    return '\n'.join(out[:-1]) + '\n'
