"""Blocks of 512 bytes, their check words, and the words in them."""
import struct
from operator import mul

BLOCK, PER_BLOCK, MOST_BLOCKS = 512, 127, 4096
MOST_WORDS = PER_BLOCK * MOST_BLOCKS
TOP = 4294967295
# by the edition of a sheet, the most types on a chain of parents
MOST_ON_CHAIN = {1: 256, 2: 64}
# the editions in which the optional arguments of an import may be left out
MAY_LEAVE_OUT = [2]
# what word 0 of a sheet can be, and of a host list
EDITIONS, HOST_EDITIONS = list(MOST_ON_CHAIN), [1]

class Broken(Exception):
    """Bytes that break the layout: where, inside what, and what was expected."""
    def __init__(self, where, message):
        super().__init__(where, message)
        self.where, self.message, self.inside = where, message, []

    def __str__(self):
        inside = f' ({", ".join(reversed(self.inside))})' if self.inside else ''
        return f'{self.where}{inside}: {self.message}'

def check_word(number, body):
    return (number + sum(map(mul, range(1, 509), body))) % 65521

def block(number, body):
    return body + struct.pack('<I', check_word(number, body))

# edition and length stand before the words of the lists
def to_blocks(edition, body):
    words = [edition, len(body) + 2, *body]
    count = -(-len(words) // PER_BLOCK)
    words += [0] * (PER_BLOCK * count - len(words))
    parts = [struct.pack('<127I', *words[k:k + PER_BLOCK]) for k in range(0, len(words), PER_BLOCK)]
    return b''.join(block(number, part) for number, part in enumerate(parts))

# the words of intact blocks of one of these editions, and the length that word 1 gives
def from_blocks(data, editions=EDITIONS):
    count, rest = divmod(len(data), BLOCK)
    if rest or not 1 <= count <= MOST_BLOCKS:
        raise Broken(f'{len(data)} bytes', f'expected 1 to {MOST_BLOCKS} blocks of {BLOCK} bytes')
    words = []
    for number in range(count):
        part = data[BLOCK * number:BLOCK * (number + 1)]
        *own, found = struct.unpack('<128I', part)
        expected = check_word(number, part[:508])
        if found != expected:
            raise Broken(f'block {number}', f'check word {found}; expected {expected}')
        words += own
    return words, length(words, count, editions)

def either_edition(editions):
    return ' or '.join(map(str, editions))

def length(words, count, editions):
    if words[0] not in editions:
        raise Broken('word 0', f'edition {words[0]}; expected {either_edition(editions)}')
    least, most = max(2, PER_BLOCK * (count - 1) + 1), PER_BLOCK * count
    if not least <= words[1] <= most:
        raise Broken('word 1', f'length {words[1]}; expected {least} to {most}, so that it ends in the last of {count} blocks')
    for at in range(words[1], most):
        if words[at]:
            raise Broken(f'word {at}', f'{words[at]}; expected 0 after the length, {words[1]} words')
    return words[1]
