"""Runs the loader on a sheet and a host list, and says what the six numbers mean. The words are README.md's."""
import signal, subprocess, tempfile
from . import native
from .arity import wrong_call
from .blocks import MOST_ON_CHAIN
from .codes import EXPORTS
from .families import plural, shortened
from .files import Failed, say
from .module import SHEET, read

KINDS = {
    1: "the sheet's layout is broken",
    2: 'no host function for an import',
    3: 'a number is out of range',
    4: "a signature is no func type with at most one result, or no scheduler's",
    5: 'the registers do not begin with the parameters',
    6: 'a function has no code',
    7: 'the last instruction falls through',
    8: 'wrong number of arguments',
    9: 'a function with captures is called directly, or is the start',
    10: 'Promote into what is not dyn',
    11: 'a type of the wrong kind',
    12: 'a wrong modifier',
    13: "a handler's range, target or register is wrong",
    14: 'a catch register is not dyn',
    15: 'a tail call under a handler',
    16: "a parent is no struct, or its fields are not the first of the child's",
    17: f'over {MOST_ON_CHAIN[1]} types on a chain, {MOST_ON_CHAIN[2]} in edition 2, or a cycle',
    18: 'a constant holds itself or a later one, or nests over 64 deep',
    19: "a hook's callee has the wrong shape",
    20: 'the start function takes or gives something',
    21: 'a parameter list is wrong',
    22: 'a call shape is wrong',
    23: 'the host list is broken or holds a pair twice',
    24: 'table or work is shorter than 64 + 8N words',
    25: 'not a linked table',
    26: 'never given',
    27: "an export's name is no string of the sheet",
    28: 'an export has the name of an earlier one',
}
OUT_OF = ['type', 'function', 'string', 'constant', 'register', 'import', 'global', 'branch target', 'table target', 'table', 'name', 'type ref',
          'capture', 'call shape']
WANTED = ['a struct', 'an array', 'a map', 'a cell']
# of --nearest, whose kind 1 is not load's
NO_FAMILY = [1, 0]

# words 1, 3, 0 and the check word of their block
def empty_list():
    return b'\1\0\0\0\3\0\0\0' + bytes(500) + b'\20\0\0\0'

class Loader:
    """The loader under one host list, for any number of sheets."""
    def __init__(self, tool, hosts, say=say):
        self.tool, self.say = tool, say
        self.program, self.rests_on = native.program(tool)
        self.folder = tempfile.TemporaryDirectory()
        self.hosts = self.folder.name + '/hosts'
        with open(self.hosts, 'wb') as f:
            f.write(hosts)

    def __enter__(self):
        return self

    def __exit__(self, *_):
        self.folder.cleanup()

    # what it prints, and its status; an interrupt waits until the child can be ended: left alone it would miss its host list, and say so
    def run(self, sheet, *asked):
        kept = signal.pthread_sigmask(signal.SIG_BLOCK, [signal.SIGINT])
        try:
            child = subprocess.Popen([self.program, *asked, '-', self.hosts], stdin=subprocess.PIPE, stdout=subprocess.PIPE)
            with child:
                try:
                    signal.pthread_sigmask(signal.SIG_SETMASK, kept)
                    return child.communicate(sheet)[0], child.returncode
                except BaseException:
                    child.kill()
                    child.wait()
                    raise
        finally:
            signal.pthread_sigmask(signal.SIG_SETMASK, kept)

    # the six numbers and, where the sheet is accepted, the words of what is asked for: --table, --families, --nearest T U or nothing
    def load(self, sheet, *asked):
        printed, status = self.run(sheet, *asked)
        words = printed.split()
        if status not in (0, 1) or not all(map(bytes.isdigit, words)):
            raise Failed(f'no verdict: {self.program} ended with status {status} and printed {printed[:200]!r}; {native.AGAIN}')
        found = answer(self.program, status, list(map(int, words)), *asked)
        if self.rests_on:
            self.say(self.tool, self.rests_on)
            self.rests_on = None
        return found

# of one sheet
def load(tool, sheet, hosts, *asked):
    with Loader(tool, hosts) as loader:
        return loader.load(sheet, *asked)

# status and length must be those of the kind: half an answer is none
def answer(program, status, words, *asked):
    numbers, rest = words[:6], words[6:]
    if len(numbers) < 6 or status != (1 if numbers[0] else 0) or not whole(numbers, rest, *asked):
        raise Failed(f'no verdict: {program} ended with status {status} and printed {len(words)} numbers, first {numbers}')
    return numbers, rest

# a table has L words; families a kind and a number of struct types, then a type and a size for each; a nearest family a kind and a type
def whole(numbers, rest, asked=None, *_):
    if numbers[0] == 0 and asked == '--families':
        return len(rest) >= 2 and rest[0] == 0 and len(rest) == 2 + 2 * rest[1]
    if numbers[0] == 0 and asked == '--nearest':
        return len(rest) == 2 and (rest[0] == 0 or rest == NO_FAMILY)
    return len(rest) == (numbers[2] if numbers[0] == 0 and asked == '--table' else 0)

# the words of a kind; of 17 those of the sheet's own edition, its first word
def words_of(sheet, kind):
    return f'over {MOST_ON_CHAIN[int.from_bytes(sheet[:4], "little")]} types on a chain, or a cycle' if kind == 17 else KINDS[kind]

# an export by its place in the list, and what it exports
def exported(module, place):
    export = module.exports[place]
    return f'export {place}, {EXPORTS[export.kind]} {export.index},'

# the loader stops at the first export whose name no string has, so that it is the first with this one
def unnamed(module, name):
    place = [export.name for export in module.exports].index(name)
    return f'{exported(module, place)} has string {name} as its name, and the sheet has {plural(len(module.strings), "string")}'

# the export at that place, and the first of those before it whose name has the same text
def namesakes(module, later):
    names = [export.name for export in module.exports[:later + 1]]
    texts = [module.strings[name] for name in names]
    first = texts.index(texts[later], 0, later)
    numbers = f'string {names[first]}' if names[first] == names[later] else f'strings {names[first]} and {names[later]}'
    return f'{exported(module, first)} and {exported(module, later)} are both named {shortened(texts[later])!r} ({numbers})'

# what word, number and second say of their kind
def details(sheet, numbers):
    kind, word, number, second, *_ = numbers
    if kind == 2:
        texts = read(sheet, SHEET).strings
        return f': module {texts[number]!r} (string {number}), name {texts[second]!r} (string {second})'
    if kind == 3:
        return f': {OUT_OF[word - 1]} {number}'
    if kind == 8:
        return f': {wrong_call(sheet, numbers) or f"{number} expected, {second} found"}'
    if kind == 11:
        return f': {WANTED[word - 1]} is wanted'
    if kind in (27, 28):
        return f': {(unnamed if kind == 27 else namesakes)(read(sheet, SHEET), number)}'
    return f': hook {number}' if kind == 19 else ''

def meaning(sheet, numbers):
    kind, _, number, _, function, position = numbers
    if kind == 0:
        return f'accepted; the linked table has {number} words'
    said = f'refused, kind {kind}: {words_of(sheet, kind)}{details(sheet, numbers)}'
    if function:
        said += f'\nin function {function - 1}' + (f', instruction {position - 1}' if position else '')
    return said

# numbers of the loader, and below what they mean
def answered(numbers, words):
    return f'{" ".join(map(str, numbers))}\n{words}\n'
