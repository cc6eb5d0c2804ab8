"""A sheet or a host list from its text: first the items and their labels, then each item in the order of the text."""
from .blocks import EDITIONS, MOST_WORDS, TOP, either_edition
from .codes import CALLEES, EXPORTS, FLAGS, HOOKS, HOOK_COUNT, HOST_KINDS, REF, VALUE_TYPES
from .damage import Damage
from .function import ITEMS, read_function
from .lexer import Line, Wrong, a, either, meant
from .module import (Array, Cell, Coroutine, Entries, Export, Func, Global, Hook, Host, Hosts, Import, Items, Iter, Map, Module, Plain, Struct, Text,
                     body, write)

DECLARED = dict(type='type', const='constant', function='function', **{'import': 'import', 'global': 'global'})
SHEET_ITEMS = ITEMS
HOST_ITEMS = ['host', 'damage']
# items that can have further lines
LONG = {'strings', 'type', 'import', 'function'}

class Item:
    def __init__(self, word, line):
        self.word, self.line, self.inner = word, line, []

class Names:
    """The strings and labels of a text. A text that is not listed among the strings is put behind them when it is first used."""
    def __init__(self):
        self.strings, self.first = [], {}
        self.labels = {kind: {} for kind in DECLARED.values()}

    def add(self, text):
        self.first.setdefault(text, len(self.strings))
        self.strings.append(text)

    def string(self, line, most=TOP):
        found = line.peek()
        if found.kind == 'text':
            if found.value not in self.first:
                self.add(found.value)
            return line.within(line.next(), self.first[found.value], most)
        return line.count('a text in quotation marks or the number of a string', most)

    def declare(self, kind, line):
        found = line.peek()
        label = line.label(f'a label for the {kind}')
        labels = self.labels[kind]
        if label in labels:
            raise line.wrong(found, f"{a(kind)} is called '{label}' already")
        labels[label] = len(labels)

    def refer(self, kind, line, most=TOP):
        found = line.peek()
        if found.kind == 'number':
            return line.count('', most)
        label = line.label(f'{a(kind)}: its label or number')
        labels = self.labels[kind]
        if label not in labels:
            raise line.wrong(found, f"no {kind} is called '{label}'{meant(label, labels)}")
        return labels[label]

    def value(self, line):
        if line.accept('ref'):
            return REF + self.refer('type', line, TOP - REF)
        return VALUE_TYPES.index(line.word("a value type: bool, i8 to i64, u8 to u64, f32, f64, str, dyn, or ref and a type", VALUE_TYPES))

    # `-` or a string, with flags before it
    def param(self, line):
        flags = 0
        if line.accept('flags'):
            line.expect('=')
            flags = line.count('flags as a number')
        while line.peek().text in FLAGS:
            flags |= 1 << FLAGS.index(line.next().text)
        return flags, 0 if line.accept('-') else 1 + self.string(line, TOP - 1)

# lines that are not empty, split into items; a line that begins with no item's word belongs to the item before
def items(lines, known):
    out = []
    for line in lines:
        first = line.peek()
        if first.kind == 'name' and first.text in known and line.peek(1).text != ':':
            out.append(Item(line.next().text, line))
        elif not out or out[-1].word not in LONG:
            raise line.expected(either(known), known)
        else:
            out[-1].inner.append(line)
    return out

class Sheet:
    """The lists of a sheet, filled item by item."""
    def __init__(self, edition, found):
        self.names, self.module, self.damage = Names(), Module([], [], [], [], [], [], [], None, [], edition), Damage()
        self.start = 0
        for item in found:
            if item.word == 'strings':
                self.listed(item)
            if item.word in DECLARED:
                self.names.declare(DECLARED[item.word], item.line)
        for item in found:
            getattr(self, 'read_' + item.word)(item)

    def listed(self, item):
        for line in [item.line, *item.inner]:
            for found in line.members(lambda line=line: self.text(line)):
                self.names.add(found)
            line.finish()

    def text(self, line):
        if line.peek().kind != 'text':
            raise line.expected('a text in quotation marks', SHEET_ITEMS)
        return line.next().value

    def read_strings(self, item):
        pass

    def read_type(self, item):
        line = item.line
        kind = line.word("'func', 'struct', 'array', 'map', 'cell', 'iter' or 'coroutine'", ['func', 'struct', 'array', 'map', 'cell', 'iter', 'coroutine'])
        made = getattr(self, kind)(line)
        line.finish()
        for inner in item.inner:
            self.struct_line(made, inner)
        self.module.types.append(made)

    def value(self, line):
        return self.names.value(line)

    def func(self, line):
        line.expect('(')
        params = line.members(lambda: self.value(line), ')')
        line.expect(')')
        return Func(params, line.members(lambda: self.value(line)) if line.accept('->') else [])

    def struct(self, line):
        name = self.names.string(line)
        parent = 1 + self.names.refer('type', line, TOP - 1) if line.accept('parent') else 0
        return Struct(name, parent, [], [])

    def pair(self, line, read):
        key = read(line)
        line.expect('->')
        return key, read(line)

    def array(self, line):
        return Array(self.value(line))

    def map(self, line):
        return Map(*self.pair(line, self.value))

    def cell(self, line):
        return Cell(self.value(line))

    def iter(self, line):
        return Iter(*self.pair(line, self.value))

    def coroutine(self, line):
        return Coroutine()

    def struct_line(self, made, line):
        if not isinstance(made, Struct):
            raise line.expected(either(SHEET_ITEMS), SHEET_ITEMS)
        if line.word("'field', 'method' or a new item", ['field', 'method'], SHEET_ITEMS) == 'field':
            made.fields.append((self.names.string(line), self.value(line)))
        else:
            made.methods.append((self.names.string(line), self.names.refer('function', line)))
        line.finish()

    def read_const(self, item):
        line = item.line
        number = lambda line=line: self.names.refer('constant', line)
        kind = line.word("'plain', 'string', 'array' or 'map'", ['plain', 'string', 'array', 'map'])
        if kind == 'plain':
            low = line.count('the low word of the constant')
            made = Plain(low, 0 if line.peek().kind == 'end' else line.count('the high word of the constant'))
        elif kind == 'string':
            made = Text(self.names.string(line))
        else:
            made = Items(line.members(number)) if kind == 'array' else Entries(line.members(lambda: self.pair(line, number)))
        line.finish()
        self.module.consts.append(made)

    def read_import(self, item):
        line, names = item.line, self.names
        module, name, sig = names.string(line), names.string(line), names.refer('type', line)
        line.finish()
        params = None
        for inner in item.inner:
            inner.word("'parameters' or a new item", ['parameters'], SHEET_ITEMS)
            params = (params or []) + inner.members(lambda inner=inner: names.param(inner))
            inner.finish()
        self.module.imports.append(Import(module, name, sig, params))

    def read_global(self, item):
        line = item.line
        value = self.value(line)
        const = 1 + self.names.refer('constant', line, TOP - 1) if line.accept('=') else 0
        line.finish()
        self.module.globals.append(Global(value, const))

    def read_function(self, item):
        self.module.functions.append(read_function(self.names, item))

    def read_hook(self, item):
        line = item.line
        hook = line.count('', HOOK_COUNT - 1) if line.peek().kind == 'number' else HOOKS.index(line.word('a hook: 0 to 30 or its name', HOOKS))
        callee = line.word("'function' or 'import'", CALLEES)
        index = self.names.refer(callee, line)
        line.finish()
        self.module.hooks.append(Hook(hook, CALLEES.index(callee), index))

    def read_start(self, item):
        if self.start:
            raise Wrong(item.line.number, item.line.tokens[0].column, 'a start function is named already')
        self.start = 1 + self.names.refer('function', item.line, TOP - 1)
        item.line.finish()

    def read_export(self, item):
        line = item.line
        kind = line.word("'function', 'global' or 'type'", EXPORTS)
        name, index = self.names.string(line), self.names.refer(kind, line)
        line.finish()
        self.module.exports.append(Export(EXPORTS.index(kind), name, index))

    def read_damage(self, item):
        self.damage.add(item.line)

    def made(self):
        return self.module._replace(strings=self.names.strings, start=self.start), self.damage

# host functions, and damage
def host_list(found):
    hosts, damage = [], Damage()
    for item in found:
        if item.word == 'damage':
            damage.add(item.line)
            continue
        texts = []
        for what in ('module', 'name'):
            if item.line.peek().kind != 'text':
                raise item.line.expected(f"the host function's {what} in quotation marks")
            texts.append(item.line.next().value)
        kind = 0 if item.line.peek().kind == 'end' else HOST_KINDS.index(item.line.word("'user' or 'scheduler'", HOST_KINDS))
        item.line.finish()
        hosts.append(Host(*texts, kind))
    return Hosts(hosts), damage

# the line behind `sheet`; a sheet that names no edition is of edition 1
def edition_of(line):
    if line.peek().kind == 'end':
        return 1
    line.word("'edition' or the end of the line", ['edition'])
    if line.peek().kind != 'number' or line.peek().value not in EDITIONS:
        raise line.expected(f'an edition, {either_edition(EDITIONS)}')
    edition = line.next().value
    line.finish()
    return edition

# the module or host list, and the damage that its text asks for
def parse(text):
    lines = [Line(number, source) for number, source in enumerate(text.split('\n'), 1)]
    lines = [line for line in lines if line.tokens] or [lines[-1]]
    if lines[0].word("'sheet' or 'hosts' first", ['sheet', 'hosts']) == 'sheet':
        return Sheet(edition_of(lines[0]), items(lines[1:], SHEET_ITEMS)).made()
    lines[0].finish()
    return host_list(items(lines[1:], HOST_ITEMS))

# the bytes of a text
def written(text):
    found, damage = parse(text)
    count = len(body(found)) + 2
    if count > MOST_WORDS:
        raise Wrong(1, 1, f'this takes {count} words, and the most is {MOST_WORDS} (4096 blocks)')
    return damage.done(write(found))
