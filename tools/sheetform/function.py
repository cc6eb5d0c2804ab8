"""A function from its lines: its lists first, then its code."""
import re
from .blocks import TOP
from .codes import CODES, MODIFIERS, OPS, SHAPES, WIDTHS, instruction, unread
from .labels import firsts
from .lexer import meant
from .module import Function

FUNCTION_WORDS = ['registers', 'parameters', 'shape', 'captures', 'names', 'type-refs', 'handler', 'table']
# words that begin a new item, for what may be meant by a wrong one
ITEMS = ['strings', 'type', 'const', 'import', 'global', 'function', 'hook', 'start', 'export', 'damage']
MODIFIER_VALUES = {name: {word: value for value, word in words.items()} for name, words in MODIFIERS.items()}

class Body:
    def __init__(self, names, item):
        self.names, self.line = names, item.line
        self.function = Function(names.refer('type', item.line), [], None, [], [], [], [], [], [], [])
        self.lists, self.code, self.positions = [], [], {}
        item.line.finish()
        for line in item.inner:
            self.sort(line)

    # labels of positions are known before any line is read
    def sort(self, line):
        if line.peek().kind == 'name' and line.peek(1).text == ':':
            found = line.next()
            if found.text in self.positions or found.text == 'default':
                raise line.wrong(found, f"a position is called '{found.text}' already" if found.text in self.positions else "a position cannot be called 'default'")
            self.positions[found.text] = len(self.code)
            line.next()
            if line.peek().kind == 'end':
                return
            if line.peek().text not in CODES:
                raise line.expected('an instruction', CODES)
        word = line.word('an instruction, a list of the function or a new item', [*FUNCTION_WORDS, *CODES], ITEMS)
        (self.code if word in CODES else self.lists).append(line)
        line.at -= 1

    def read(self):
        for line in self.lists:
            word = line.next().text
            getattr(self, 'read_' + word.replace('-', '_'))(line)
            line.finish()
        self.firsts = {'name': firsts(self.function.names), 'type ref': firsts(self.function.type_refs)}
        for line in self.code:
            self.function.code.append(self.instruction(line, CODES[line.next().text]))
            line.finish()
        return self.function

    def read_registers(self, line):
        self.function.registers.extend(line.members(lambda: self.names.value(line)))

    def read_parameters(self, line):
        params = (self.function.params or []) + line.members(lambda: self.names.param(line))
        self.function = self.function._replace(params=params)

    def read_captures(self, line):
        self.function.captures.extend(line.members(lambda: self.names.value(line)))

    def read_names(self, line):
        self.function.names.extend(line.members(lambda: self.names.string(line)))

    def read_type_refs(self, line):
        self.function.type_refs.extend(line.members(lambda: self.names.refer('type', line)))

    def read_shape(self, line):
        self.function.shapes.append(line.members(lambda: self.member(line)))

    def member(self, line):
        if line.accept('kind'):
            line.expect('=')
            kind = line.count('a call shape kind')
        else:
            kind = SHAPES.index(line.word("'positional', 'named', 'spread' or kind=NUMBER", SHAPES))
        if kind == 1:
            return kind, self.names.string(line)
        if not line.accept('name'):
            return kind, 0
        line.expect('=')
        return kind, self.names.string(line)

    def read_handler(self, line):
        start = self.target(line)
        line.expect('to')
        end = self.target(line)
        line.expect('goto')
        target = self.target(line)
        line.expect('catch')
        self.function.handlers.append((start, end, target, self.prefixed(line, 'register', TOP)))

    def read_table(self, line):
        targets = line.members(lambda: self.target(line), 'default')
        line.expect('default')
        self.function.tables.append((targets, self.target(line)))

    def target(self, line, most=TOP):
        found = line.peek()
        if found.kind != 'name':
            return line.count('a position: its label or number', most)
        if found.text not in self.positions:
            raise line.wrong(found, f"no position is called '{found.text}'{meant(found.text, self.positions)}")
        return self.positions[line.next().text]

    # r0, table0, capture0, shape0, or a number
    def prefixed(self, line, kind, most):
        prefix, found = 'r' if kind == 'register' else kind, line.peek()
        if found.kind == 'name' and re.fullmatch(prefix + '[0-9]{1,10}', found.text):
            return line.within(line.next(), int(found.text[len(prefix):]), most)
        return line.count(f'a {kind} such as {prefix}0', most)

    # a member of the function's names or type refs: the first that is it, put behind them if none is
    def listed(self, line, kind, most):
        found = line.peek()
        if found.kind == 'number':
            return line.count('', most)
        members = self.function.names if kind == 'name' else self.function.type_refs
        number = self.names.string(line) if kind == 'name' else self.names.refer('type', line)
        firsts = self.firsts[kind]
        if number not in firsts:
            firsts[number] = len(members)
            members.append(number)
        return line.within(found, firsts[number], most)

    def operand(self, line, kind, most):
        if kind in ('register', 'table', 'capture', 'shape'):
            return self.prefixed(line, kind, most)
        if kind == 'target':
            return self.target(line, most)
        return self.listed(line, kind, most) if kind in self.firsts else self.names.refer(kind, line, most)

    def instruction(self, line, code):
        op = OPS[code]
        values = {slot: self.operand(line, kind, WIDTHS[slot]) for slot, kind in op.fields}
        spare = dict.fromkeys(unread(code) + ['d'])
        names = [*([op.modifier] if op.modifier else []), *spare]
        while line.peek().kind != 'end':
            found = line.peek()
            name = line.word('the end of the line or ' + ', '.join(f'{n}=' for n in names), names)
            slot = 'd' if name == op.modifier else name
            if slot in values:
                raise line.wrong(found, f'{name} is given already')
            line.expect('=')
            values[slot] = self.given(line, name, WIDTHS[slot])
        return instruction(code, values)

    def given(self, line, name, most):
        words = MODIFIER_VALUES.get(name, {})
        if line.peek().kind == 'name' and line.peek().text in words:
            return words[line.next().text]
        return line.count('a number' + (f" or one of {', '.join(words)}" if words else ''), most)

def read_function(names, item):
    return Body(names, item).read()
