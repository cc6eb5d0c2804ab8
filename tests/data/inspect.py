#!/usr/bin/env python3
"""Writes what the program `inspect` is run on: its sheets (data/), its arguments, and what it must print, each case by what it is meant to be.

A case is a list of words after N, or bytes; by docs/FORMAT.md, apart from the definitions.
"""
from sheets import blocks, func, parts, sheet, write

RICH = dict(strings=['Aufzug', 'é', '日本語'], types=[[0, 1, 12, 1, 12], [1, 0, 0, 1, 1, 16, 1, 2, 0], [2, 11], [3, 4, 12], [4, 12], [5, 0, 10], [6]],
            consts=[[0, 7, 0], [1, 2], [2, 2, 0, 1], [3, 1, 0, 1]], imports=[[0, 1, 0, 0], [0, 2, 0, 1, 1, 0, 0]], globals_=[[12, 0], [17, 1]],
            funcs=[func(0, [12], (1, 1, 2, 0), [[[0, 9], [1, 0]]], [(34, 0), (2, 0)])], hooks=[[0, 0, 0], [30, 1, 1]], start=0,
            exports=[[0, 0, 0], [1, 5, 1], [2, 9, 6]])

def counts(p):
    return [len(p.get(k, ())) for k in ('strings', 'types', 'consts', 'imports', 'globals_', 'funcs', 'hooks')] + [p.get('start', 0), len(p.get('exports', ()))]

CASES = []
def intact(name, p, body=None, edition=1):
    body = body or parts(**p)
    CASES.append((name, sheet(body, edition=edition), 'intact ' + ' '.join(map(str, [len(body) + 2] + counts(p)))))
def broken(name, data):
    CASES.append((name, data, 'broken'))

EMPTY = parts()
intact('empty', {})
intact('rich', RICH)
broken('no-bytes', b'')
broken('one-byte-short', sheet(EMPTY)[:-1])
broken('one-byte-more', sheet(EMPTY) + b'\0')
broken('one-block-too-many', sheet(EMPTY, count=2))
broken('check-word-congruent', sheet(EMPTY)[:508] + (56 + 65521).to_bytes(4, 'little'))
broken('check-word-off-by-one', sheet(EMPTY)[:508] + (57).to_bytes(4, 'little'))
intact('edition-2', {}, edition=2)
intact('rich-of-edition-2', RICH, edition=2)
broken('edition-0', sheet(EMPTY, edition=0))
broken('edition-3', sheet(EMPTY, edition=3))
broken('edition-most', sheet(EMPTY, edition=4294967295))
broken('n-too-small', sheet(EMPTY, n=10))
broken('n-too-large', sheet(EMPTY, n=12))
broken('word-after-n', blocks([1, 11] + [0] * 9 + [1]))
filler = lambda n: {'strings': ['x' * (4 * (n - 12))]}
intact('n-127', filler(127))
intact('n-128', filler(128))
broken('n-127-in-two-blocks', sheet(parts(**filler(127)), count=2))
intact('text-across-a-border', {'strings': ['ü' * 400, '€' * 90, '\U000233b4' * 40]})
# unlisted codes
broken('type-kind-7', sheet(parts(types=[[7]])))
for v in (13, 14, 15):
    broken('value-type-%d' % v, sheet(parts(types=[[2, v]])))
broken('value-type-13-of-a-field', sheet(parts(types=[[1, 0, 0, 1, 0, 13, 0]])))
broken('value-type-14-of-a-global', sheet(parts(globals_=[[14, 0]])))
broken('value-type-15-of-a-register', sheet(parts(funcs=[func(0, [15])])))
broken('constant-kind-4', sheet(parts(consts=[[4]])))
broken('optional-2-of-an-import', sheet(parts(imports=[[0, 0, 0, 2]])))
broken('optional-2-of-a-function', sheet(parts(funcs=[func(params=(2,))])))
broken('code-35', sheet(parts(funcs=[func(code=[(35, 0)])])))
broken('code-255', sheet(parts(funcs=[func(code=[(255, 0)])])))
intact('code-34-any-d', {'funcs': [func(code=[(34 + 200 * 256, 7)])]})
broken('hook-31', sheet(parts(hooks=[[31, 0, 0]])))
broken('callee-kind-2', sheet(parts(hooks=[[0, 2, 0]])))
broken('export-kind-3', sheet(parts(exports=[[3, 0, 0]])))
intact('flags-and-shape-kinds-are-no-codes', {'funcs': [func(params=(1, 1, 9, 9), shapes=[[[7, 4294967295]]])]})
# hostile counts, lengths
broken('string-count-most', sheet([4294967295] + [0] * 8))
broken('string-length-most', sheet([1, 4294967295] + [0] * 8))
broken('string-length-wraps', sheet([1, 4294967293] + [0] * 8))
broken('type-count-most', sheet([0, 4294967295] + [0] * 7))
broken('params-count-most', sheet([0, 1, 0, 4294967295] + [0] * 8))
broken('pairs-count-half', sheet([0, 0, 1, 3, 2147483648] + [0] * 6))
broken('code-count-half', sheet([0, 0, 0, 0, 0, 1, 0, 0, 0, 0, 0, 0, 0, 0, 0, 2147483648] + [0] * 3))
broken('padding-not-zero', sheet([1, 1, 0x4161] + [0] * 8))
# UTF-8
for name, octets in (('overlong-2', b'\xc0\x80'), ('overlong-3', b'\xe0\x9f\xbf'), ('overlong-4', b'\xf0\x8f\xbf\xbf'), ('surrogate', b'\xed\xa0\x80'),
                     ('above-10ffff', b'\xf4\x90\x80\x80'), ('f5', b'\xf5\x80\x80\x80'), ('ff', b'\xff'), ('tail-alone', b'\x80'), ('cut-2', b'a\xc3'),
                     ('cut-3', b'ab\xe2\x89'), ('cut-4', b'\xf0\xa3\x8e'), ('tail-missing', b'\xe2A\x89')):
    broken('utf8-' + name, sheet(parts(strings=[octets])))
intact('utf8-last-of-each', {'strings': [b'\x7f\xdf\xbf\xef\xbf\xbf\xf4\x8f\xbf\xbf', b'\xed\x9f\xbf\xee\x80\x80']})

if __name__ == '__main__':
    write('inspect', CASES, 'broken')
