"""Damage to a sheet that a text asks for, so that a sheet with a broken layout has a text too."""
from .blocks import BLOCK, MOST_BLOCKS, PER_BLOCK, block

class Damage:
    def __init__(self):
        self.asked = []

    # damage word K = V, damage byte K = V, damage length = V
    def add(self, line):
        what = line.word("'word', 'byte' or 'length'", ['word', 'byte', 'length'])
        place = line.peek()
        at = None if what == 'length' else line.count(f'the number of a {what}')
        line.expect('=')
        value = line.count('a number', dict(byte=255, length=BLOCK * (MOST_BLOCKS + 1)).get(what, 4294967295))
        line.finish()
        self.asked.append((what, line, place, at, value))

    def done(self, data):
        for what, line, place, at, value in self.asked:
            if what == 'length':
                data = data[:value].ljust(value, b'\0')
                continue
            count = len(data) if what == 'byte' else len(data) // BLOCK * PER_BLOCK
            if at >= count:
                raise line.wrong(place, f'there are {count} {what}s, counted from 0')
            data = (word if what == 'word' else byte)(data, at, value)
        return data

def byte(data, at, value):
    return data[:at] + bytes([value]) + data[at + 1:]

# the check word of its block is made to fit
def word(data, at, value):
    number, place = divmod(at, PER_BLOCK)
    start = BLOCK * number
    own = data[start:start + 508]
    own = own[:4 * place] + value.to_bytes(4, 'little') + own[4 * place + 4:]
    return data[:start] + block(number, own) + data[start + BLOCK:]
