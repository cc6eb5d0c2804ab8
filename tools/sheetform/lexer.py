"""Lines of a text as tokens, and what is said of a wrong one."""
from collections import namedtuple
import difflib, re
from .blocks import TOP
from .labels import LABEL, LETTER

Token = namedtuple('Token', 'kind text value column')
WORD = f'[{LETTER}0-9]'
TOKEN = re.compile(rf'(?P<space>[ \t\r]+)|(?P<comment>\#.*)|(?P<text>"(?:[^"\\]|\\.)*")|(?P<word>{WORD}(?:{WORD}|-(?={WORD}))*)|(?P<mark>->|[-(),=:])')
NUMBER = re.compile('0[xX][0-9a-fA-F]+|[0-9]+')
ESCAPE = re.compile(r'\\(?:u([0-9a-fA-F]{4})|(.))')
OVER = f'a number over {TOP}, the most that a word holds'
SIMPLE = {'"': '"', '\\': '\\', '/': '/', 'b': '\b', 'f': '\f', 'n': '\n', 'r': '\r', 't': '\t'}

class Wrong(Exception):
    """A wrong text: the line and column, from 1, and what is wrong there."""
    def __init__(self, line, column, message):
        super().__init__(line, column, message)
        self.line, self.column, self.message = line, column, message

# what is most like it among so many as are quickly compared
def meant(word, known, shown="'{}'".format):
    close = difflib.get_close_matches(word, list(known)[:2000], 1)
    return f'; did you mean {shown(close[0])}?' if close else ''

def a(kind):
    return f'an {kind}' if kind == 'import' else f'a {kind}'

def either(words):
    words = [f"'{word}'" for word in words]
    return words[0] if len(words) == 1 else f'{", ".join(words[:-1])} or {words[-1]}'

def unquoted(number, column, source):
    inner, out, at = source[1:-1], [], 0
    for found in ESCAPE.finditer(inner):
        out += [inner[at:found.start()]]
        here = column + 1 + found.start()
        if found.group(1) is None and found.group(2) not in SIMPLE:
            raise Wrong(number, here, f'no escape of a text; expected \\" \\\\ \\n \\r \\t \\b \\f \\/ or \\u and four digits')
        out.append(SIMPLE[found.group(2)] if found.group(1) is None else chr(int(found.group(1), 16)))
        at = found.end()
    text = ''.join(out + [inner[at:]])
    try:
        # halves of a character beyond the basic plane are put together; one alone is none
        return text.encode('utf-16-le', 'surrogatepass').decode('utf-16-le')
    except UnicodeDecodeError:
        raise Wrong(number, column, 'a text with half a character: \\ud800 to \\udfff stand in pairs') from None

# the number that digits give, or None where no word holds it
def word_of(digits, base=10):
    digits = digits.lstrip('0')
    value = TOP + 1 if len(digits) > 10 else int(digits or '0', base)
    return value if value <= TOP else None

def numbered(number, column, source):
    if not NUMBER.fullmatch(source):
        raise Wrong(number, column, f"'{source}' is neither a number nor a name")
    value = word_of(source[2:], 16) if source[:2] in ('0x', '0X') else word_of(source)
    if value is None:
        raise Wrong(number, column, OVER)
    return value

def token(number, kind, source, column):
    if kind == 'text':
        low = next((k for k, c in enumerate(source) if c < ' '), None)
        if low is not None:
            raise Wrong(number, column + low, f'a control character in a text; expected \\u{ord(source[low]):04x}')
        return Token('text', source, unquoted(number, column, source), column)
    if kind == 'mark':
        return Token('mark', source, source, column)
    if LABEL.fullmatch(source):
        return Token('name', source, source, column)
    return Token('number', source, numbered(number, column, source), column)

def tokens(number, source):
    out, at = [], 0
    while at < len(source):
        found = TOKEN.match(source, at)
        if not found:
            what = 'a text without its closing quotation mark' if source[at] == '"' else f'unexpected character {ascii(source[at])}'
            raise Wrong(number, at + 1, what)
        if found.lastgroup not in ('space', 'comment'):
            out.append(token(number, found.lastgroup, found.group(), at + 1))
        at = found.end()
    return out

class Line:
    """The tokens of a line, and the next of them."""
    def __init__(self, number, source):
        self.number, self.tokens, self.at = number, tokens(number, source), 0
        self.last = Token('end', '', None, self.tokens[-1].column + len(self.tokens[-1].text) if self.tokens else 1)

    def peek(self, ahead=0):
        return self.tokens[self.at + ahead] if self.at + ahead < len(self.tokens) else self.last

    def next(self):
        found = self.peek()
        self.at += 1
        return found

    def wrong(self, found, message):
        return Wrong(self.number, found.column, message)

    def expected(self, what, known=()):
        found = self.peek()
        here = 'the line ends' if found.kind == 'end' else f'found {found.text}' if len(found.text) < 40 else f'found {found.text[:36]}...'
        return self.wrong(found, f'expected {what}; {here}{meant(found.text, known) if found.kind == "name" else ""}')

    def accept(self, text):
        found = self.peek()
        if found.kind in ('mark', 'name') and found.text == text:
            self.at += 1
            return True
        return False

    def expect(self, text):
        if not self.accept(text):
            raise self.expected(f"'{text}'")

    # one of these words; further ones may be meant by a wrong one
    def word(self, what, known, further=()):
        found = self.peek()
        if found.kind != 'name' or found.text not in known:
            raise self.expected(what, [*known, *further])
        return self.next().text

    def label(self, what):
        if self.peek().kind != 'name':
            raise self.expected(what)
        return self.next().text

    def count(self, what, most=TOP):
        found = self.peek()
        if found.kind != 'number':
            raise self.expected(what)
        return self.within(self.next(), found.value, most)

    def within(self, found, value, most):
        if value > most:
            raise self.wrong(found, f'{value} is over {most}, the most that stands here')
        return value

    # members divided by commas up to the line's end, or up to a word or mark that ends the list
    def members(self, read, end=None):
        if self.peek().kind == 'end' or (end and self.peek().text == end):
            return []
        out = [read()]
        while self.accept(','):
            out.append(read())
        return out

    def finish(self):
        if self.peek().kind != 'end':
            raise self.expected('the end of the line')
