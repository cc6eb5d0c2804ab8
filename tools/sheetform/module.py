"""A sheet's lists and a host list's: each described once, for reading and for writing."""
from collections import namedtuple
import struct
from .blocks import EDITIONS, HOST_EDITIONS, Broken, from_blocks, to_blocks
from .codes import CALLEES, EXPORTS, HOOK_COUNT, HOST_KINDS, OPS

# numbers that are "+ 1" in docs/FORMAT.md, "Lists" are kept as stored: parent, const, start, and the name of a parameter
Func = namedtuple('Func', 'params results')
Struct = namedtuple('Struct', 'name parent fields methods')
Array = namedtuple('Array', 'item')
Map = namedtuple('Map', 'key value')
Cell = namedtuple('Cell', 'item')
Iter = namedtuple('Iter', 'key value')
Coroutine = namedtuple('Coroutine', '')
Plain = namedtuple('Plain', 'low high')
Text = namedtuple('Text', 'string')
Items = namedtuple('Items', 'members')
Entries = namedtuple('Entries', 'pairs')
Import = namedtuple('Import', 'module name sig params')
Global = namedtuple('Global', 'type const')
Function = namedtuple('Function', 'sig registers params shapes captures names type_refs handlers tables code')
Hook = namedtuple('Hook', 'hook callee index')
Export = namedtuple('Export', 'kind name index')
# the edition stands before the lists, in word 0
Module = namedtuple('Module', 'strings types consts imports globals functions hooks start exports edition', defaults=[1])
Host = namedtuple('Host', 'module name kind')
Hosts = namedtuple('Hosts', 'hosts')
TYPES = [Func, Struct, Array, Map, Cell, Iter, Coroutine]
CONSTS = [Plain, Text, Items, Entries]

class Reader:
    def __init__(self, words, end):
        self.words, self.at, self.end = words, 0, end

    def take(self, what):
        if self.at == self.end:
            raise Broken(f'word {self.at}', f'the length, {self.end} words, ends here; expected {what}')
        self.at += 1
        return self.words[self.at - 1]

    def wrong(self, message):
        raise Broken(f'word {self.at - 1}', message)

class Word:
    """One word; of so many codes from 0, where a number of them is given."""
    def __init__(self, what, codes=None):
        self.what, self.codes = what, codes

    def read(self, r):
        word = r.take(self.what)
        if self.codes is not None and word >= self.codes:
            r.wrong(f'{self.what} {word}; expected 0 {"or" if self.codes == 2 else "to"} {self.codes - 1}')
        return word

    def write(self, word, out):
        out.append(word)

class ValueType(Word):
    def read(self, r):
        word = r.take(self.what)
        if 12 < word < 16:
            r.wrong(f'{self.what} {word}; expected 0 to 12, or from 16 up')
        return word

class Many:
    """A count, then members; each takes at least one word, so no more than are left."""
    def __init__(self, what, member):
        self.what, self.member = what, member

    def read(self, r):
        count = r.take(f'a count of {self.what}s')
        if count > r.end - r.at:
            r.wrong(f'{count} {self.what}s; expected at most {r.end - r.at}, as so many words are left')
        members = []
        try:
            for _ in range(count):
                members.append(self.member.read(r))
        except Broken as broken:
            broken.inside.append(f'{self.what} {len(members)}')
            raise
        return members

    def write(self, members, out):
        out.append(len(members))
        for member in members:
            self.member.write(member, out)

class Record:
    def __init__(self, made, *parts):
        self.made, self.parts = made, parts

    def read(self, r):
        return self.made(*[part.read(r) for part in self.parts])

    def write(self, record, out):
        for part, value in zip(self.parts, record):
            part.write(value, out)

class OneOf:
    """A code, then the record of that code."""
    def __init__(self, what, *records):
        self.code, self.records = Word(what, len(records)), records

    def read(self, r):
        return self.records[self.code.read(r)].read(r)

    def write(self, record, out):
        code = [made.made for made in self.records].index(type(record))
        out.append(code)
        self.records[code].write(record, out)

class Optional:
    """0, or 1 and the list."""
    def __init__(self, what, inner):
        self.code, self.inner = Word(what, 2), inner

    def read(self, r):
        return self.inner.read(r) if self.code.read(r) else None

    def write(self, value, out):
        out.append(0 if value is None else 1)
        if value is not None:
            self.inner.write(value, out)

class String:
    def read(self, r):
        size = r.take("a string's byte length")
        count = (size + 3) // 4
        if count > r.end - r.at:
            r.wrong(f'a string of {size} bytes; expected at most {4 * (r.end - r.at)}, as {r.end - r.at} words are left')
        start = r.at
        r.at += count
        data = struct.pack(f'<{count}I', *r.words[start:r.at])
        if any(data[size:]):
            r.wrong('bytes after the end of a string; expected zeros')
        try:
            return data[:size].decode('utf-8')
        except UnicodeDecodeError as e:
            raise Broken(f'word {start + e.start // 4}', f'byte {e.start} of a string is no UTF-8') from None

    def write(self, text, out):
        data = text.encode('utf-8')
        out.append(len(data))
        data += bytes(-len(data) % 4)
        out.extend(struct.unpack(f'<{len(data) // 4}I', data))

class Instruction:
    def read(self, r):
        low = r.take('an instruction')
        if low & 255 >= len(OPS):
            r.wrong(f'operation code {low & 255}; expected 0 to {len(OPS) - 1}')
        return low, r.take("an instruction's second word")

    def write(self, words, out):
        out.extend(words)

def pair(*parts):
    return Record(lambda *values: values, *parts)

VALUE = ValueType('value type')
PARAMS = Optional('parameter list mark', Many('parameter', pair(Word('flags'), Word("a parameter's name + 1"))))
TYPE = OneOf('type kind',
    Record(Func, Many('parameter type', VALUE), Many('result type', VALUE)),
    Record(Struct, Word("a struct's name"), Word('parent + 1'), Many('field', pair(Word("a field's name"), VALUE)),
           Many('method', pair(Word("a method's name"), Word("a method's function")))),
    Record(Array, VALUE), Record(Map, VALUE, VALUE), Record(Cell, VALUE), Record(Iter, VALUE, VALUE), Record(Coroutine))
CONST = OneOf('constant kind', Record(Plain, Word('a low word'), Word('a high word')), Record(Text, Word('a string')),
    Record(Items, Many('item', Word('a constant'))), Record(Entries, Many('pair', pair(Word('a key'), Word('a value')))))
FUNCTION = Record(Function, Word('a signature'), Many('register', VALUE), PARAMS,
    Many('call shape', Many('member', pair(Word('a call shape kind'), Word('a name')))),
    Many('capture', VALUE), Many('name', Word('a string')), Many('type ref', Word('a type')),
    Many('handler', pair(Word('a start'), Word('an end'), Word('a target'), Word('a catch register'))),
    Many('table', pair(Many('target', Word('a target')), Word('a default target'))), Many('instruction', Instruction()))
SHEET = Record(Module, Many('string', String()), Many('type', TYPE), Many('constant', CONST),
    Many('import', Record(Import, Word('a module'), Word('a name'), Word('a signature'), PARAMS)),
    Many('global', Record(Global, VALUE, Word('constant + 1'))), Many('function', FUNCTION),
    Many('hook', Record(Hook, Word('hook', HOOK_COUNT), Word('callee kind', len(CALLEES)), Word('an index'))), Word('start function + 1'),
    Many('export', Record(Export, Word('export kind', len(EXPORTS)), Word('a name'), Word('an index'))))
HOST_LIST = Record(Hosts, Many('host function', Record(Host, String(), String(), Word('host kind', len(HOST_KINDS)))))

def read(data, schema):
    words, end = from_blocks(data, EDITIONS if schema is SHEET else HOST_EDITIONS)
    r = Reader(words, end)
    r.at = 2
    found = schema.read(r)
    if r.at != end:
        raise Broken(f'word {r.at}', f'the lists end here; expected them to fill the length, {end} words')
    return found._replace(edition=words[0]) if schema is SHEET else found

# an intact sheet is a sheet, even where it could be read as a host list too
def read_either(data):
    try:
        return read(data, SHEET)
    except Broken as broken:
        try:
            return read(data, HOST_LIST)
        except Broken:
            raise broken from None

def body(found):
    out = []
    (SHEET if isinstance(found, Module) else HOST_LIST).write(found, out)
    return out

def write(found):
    return to_blocks(found.edition if isinstance(found, Module) else HOST_EDITIONS[0], body(found))
