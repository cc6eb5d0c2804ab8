#!/usr/bin/env python3
"""Writes what the program `report` is run on: its sheets and its host list (data/), its arguments, and what it must print.

Sizes are counted from declared parents, type by type and chain by chain, apart from the definitions and from spans. The six numbers of
accepted sheets are by hand, as the terms show; those of samples are the rows of samples/README.md. The program takes at most 16 blocks.
"""
import os, re, shutil
from answers import ARITY, BROKEN, DEEP, EXPORTED, EXPORT_NAME, HOOK, PARENT, TYPE, at, line
from samples import SAMPLES
from sheets import (COROUTINE, CRATES, DYN, I64, MOST, STR, array, cell, fn, func, import_, inst, iter_, map_, param_list, parts, ref,
                    sheet, struct)
from trial import ARRAY, CELL, COROUTINE_TYPE, FN, FUNC, IMPORT, ITER, MAP, accepted, struct_type

HERE = CRATES + '/report'

# ── families by declared parents ──

# of each struct of accepted types the declared parent, -1 at a root
def declared(types):
    return {t: words[2] - 1 for t, words in enumerate(types) if words[0] == 1}

# a struct, its parent, and so on up to the root
def chain(parents, t):
    met = []
    while t in parents:
        met.append(t)
        t = parents[t]
    return met

# how many structs have each struct on their chain
def sizes(parents):
    chains = [set(chain(parents, t)) for t in parents]
    return {a: sum(a in met for met in chains) for a in sorted(parents)}

# types moved: type t to image[t], and what names them
def renumbered(parents, image):
    out = [None] * len(image)
    for t, place in enumerate(image):
        out[place] = COROUTINE if t not in parents else struct(parent=image[parents[t]] if parents[t] >= 0 else None)
    return out

# ── cases: a name, the bytes in the file of that name, the six numbers, and the declared parents, {} of a refused sheet ──

CASES = []
def case(name, expected, types=(), strings=('',), edition=1, **p):
    parents = declared(types) if expected[0] == 0 else {}
    CASES.append((name, sheet(parts(strings=strings, types=types, **p), edition=edition), line(expected), parents))

def file(name, data):
    CASES.append((name, data, line(BROKEN), {}))

# so many structs without members
def structs(count, *others):
    return accepted(count * struct_type(), *others)

LONGEST = [struct()] + [struct(parent=k) for k in range(255)]
# as many structs as 16 blocks hold: a chain of 255, and all others under its end
MOST_STRUCTS = LONGEST[:255] + [struct(parent=254)] * 149

case('no-types', accepted())
case('no-structs', accepted(FN, ARRAY, MAP, CELL, ITER, COROUTINE_TYPE),
     [fn([I64], [DYN]), array(DYN), map_(STR, I64), cell(ref(0)), iter_(I64, I64), COROUTINE])
case('one-root', structs(1), [struct()])
case('five-roots', structs(5), [struct()] * 5)
case('root-last', structs(3), [struct(parent=2), struct(parent=2), struct()])
case('root-between', structs(3), [struct(parent=1), struct(), struct(parent=1)])
case('root-and-four-children', structs(5), [struct()] + [struct(parent=0)] * 4)
case('chain-of-three', structs(3), [struct(), struct(parent=0), struct(parent=1)])
case('chain-of-three-falling', structs(3), [struct(parent=1), struct(parent=2), struct()])
case('chain-of-256', structs(256), LONGEST)
case('chain-of-256-falling', structs(256), [struct(parent=k + 1) for k in range(255)] + [struct()])
case('chain-of-257', DEEP, LONGEST + [struct(parent=255)])
case('chain-of-64-of-edition-2', structs(64), LONGEST[:64], edition=2)
case('chain-of-64-falling-of-edition-2', structs(64), [struct(parent=k + 1) for k in range(63)] + [struct()], edition=2)
case('chain-of-65-of-edition-2', DEEP, LONGEST[:65], edition=2)
case('chain-of-65', structs(65), LONGEST[:65])
case('edition-2', accepted(), strings=(), edition=2)
case('one-struct-behind-others', structs(1, 3 * COROUTINE_TYPE), [COROUTINE] * 3 + [struct()])
# two forests, and types that are no struct before, between and behind their members
MIXED = [COROUTINE, struct(), struct(parent=1), COROUTINE, COROUTINE, struct(parent=2), struct(), struct(parent=1), COROUTINE,
         struct(parent=6), COROUTINE]
case('others-between', structs(6, 5 * COROUTINE_TYPE), MIXED)
for name, moved in (('reversed', lambda t: 10 - t), ('by-threes', lambda t: 3 * t % 11), ('rotated', lambda t: (t + 4) % 11)):
    case('others-between-' + name, structs(6, 5 * COROUTINE_TYPE), renumbered(declared(MIXED), list(map(moved, range(11)))))
case('chain-of-256-by-threes', structs(256), renumbered(declared(LONGEST), [3 * t % 256 for t in range(256)]))
# a binary tree, its root in the middle of the numbers
TREE = {t: (t - 1) // 2 if t else -1 for t in range(63)}
case('binary-tree', structs(63), [struct(parent=None if p < 0 else p) for p in TREE.values()])
case('binary-tree-moved', structs(63), renumbered(TREE, [(t + 31) % 63 for t in range(63)]))
# the parent's fields come first; equal names do not make one family
case('with-fields', accepted(struct_type(2, 1, 2), struct_type(3, 2, 3), struct_type(2, 1, 2)), strings=['x', 'y', 'z'],
     types=[struct([(0, I64), (1, STR)]), struct([(0, I64), (1, STR), (2, DYN)], parent=0, name=2), struct([(0, I64), (1, STR)], name=2)])

# ── 16 blocks, and more ──
case('sixteen-blocks', structs(404), MOST_STRUCTS)
case('sixteen-blocks-of-roots', structs(404), [struct()] * 404)
case('sixteen-blocks-one-family', structs(404), [struct(parent=403)] * 403 + [struct()])
case('sixteen-blocks-no-structs', accepted(2020 * COROUTINE_TYPE), [COROUTINE] * 2020)
case('sixteen-blocks-last-type', structs(1, 2015 * COROUTINE_TYPE), [COROUTINE] * 2015 + [struct()])
case('seventeen-blocks', BROKEN, MOST_STRUCTS + [struct()])
file('sixteen-blocks-and-a-byte', sheet(parts(strings=[''], types=MOST_STRUCTS)) + b'\0')

# ── refused: none of them counts ──
case('struct-without-a-name', [3, 3, 1], [struct(), struct(parent=0, name=1)])
case('field-of-no-type', TYPE + [9], [struct(), struct([(0, ref(9))])])
case('parent-absent', PARENT, [struct(), struct(parent=0), struct(parent=8)])
case('parent-no-struct', PARENT, [struct(), COROUTINE, struct(parent=1)])
case('parent-most', PARENT, [struct(), struct(parent=MOST - 1)])
case('circle-of-two', DEEP, [struct(), struct(parent=2), struct(parent=1)])
case('export-absent', TYPE + [3], [struct(), struct(parent=0), struct(parent=0)], exports=[(2, 0, 3)])
# a family exported under these names of three strings, two of them equal
def exported(name, expected, *names):
    family = [struct(), struct(parent=0), struct(parent=0)]
    given = dict(strings=('a', 'a', 'b'), exports=[(2, number, t) for t, number in enumerate(names)])
    case(f'exports-{name}-of-edition-2', expected, family, edition=2, **given)
    case(f'exports-{name}', structs(3), family, **given)

exported('named', structs(3), 1, 2)
exported('named-past-the-strings', EXPORT_NAME + [3], 2, 3, 1)
exported('named-alike', EXPORTED + [2], 0, 2, 1)
# a family beside an import with one mandatory parameter of two, called with so many arguments
def called(name, second, first, d):
    family = [struct(), struct(parent=0), fn(), fn([I64, I64])]
    given = dict(strings=['desk', 'price'], imports=[import_(3, params=param_list((0, 0), (2, 0)))],
                 funcs=[func(2, [I64] * 4, code=[inst(21, d=d), inst(1)])])
    for edition, of, expected in ((2, '-of-edition-2', second), (1, '', first)):
        expected = at(ARITY + expected, 0, 0) if expected else structs(2, 2 * FN, IMPORT, FUNC, 4)
        case(f'arguments-{name}{of}', expected, family, edition=edition, **given)

called('none', [1, 0], [2, 0], 0)
called('mandatory', None, [2, 1], 1)
called('all', None, None, 2)
case('hook-of-another-shape', HOOK + [5], [struct(), fn()], hooks=[(5, 0, 0)], funcs=[func(1)])
file('no-bytes', b'')
file('text', b'any bytes may come\n')
file('a-byte-short', sheet(parts())[:-1])
file('a-block-too-many', sheet(parts(), count=2))
file('check-word-congruent', sheet(parts())[:508] + (56 + 65521).to_bytes(4, 'little'))
file('edition-0', sheet(parts(), edition=0))
file('edition-3', sheet(parts(), edition=3))

# ── samples ──
def read(path):
    with open(path, 'rb') as f:
        return f.read()

# of the two tariffs, as their texts have them
FAMILIES = dict(lifts={0: -1, 1: 0, 2: 0, 3: 2},
                tariff={0: -1, 1: 0, 2: 1, 3: 2, 4: 3, 5: 1, 6: 5, 7: 0, 8: 7, 9: -1, 10: 9, 11: 9, 12: -1})
FAMILIES['longest-chain'] = {t: t - 1 for t in range(64)}
ROWS = re.findall(r'^\| ([a-z-]+) \| .* \| ([\d ]+) \|$', read(SAMPLES + '/README.md').decode(), re.M)
for name, numbers in ROWS:
    if name != 'hosts-twice':
        CASES.append((name, read(f'{SAMPLES}/{name}.sheet'), numbers, FAMILIES.get(name, {})))

# ── the run ──

# a folder opens and gives no bytes; its file is one as any other
INSIDE = 'folder/one-root'
# the longest name that a system takes, a byte more, and another, for which the program has no room
LONG_NAMES = ['.'.ljust(length - len('one-root'), '/') + 'one-root' for length in (4095, 4096, 4097)]

# arguments beside the cases, each with what its file holds, None for no bytes
def arguments():
    named = [(name, name) for name, *_ in CASES]
    also = {INSIDE: 'one-root', './five-roots': 'five-roots', 'folder/../root-last': 'root-last'}
    also.update(dict.fromkeys(['missing-file', 'folder', '', 'no-types/', 'missing/one-root', '-', '--help', 'hosts']))
    also.update(zip(LONG_NAMES, ('one-root', None, None)))
    # some stand twice, the second time behind all others
    return [*named, *also.items(), ('tariff', 'tariff'), ('lifts', 'lifts'), ('chain-of-257', 'chain-of-257')]

# what is printed of files in that order, each with the six numbers and the declared parents
def report(files):
    lines, structs, total = [], 0, 0
    for numbers, parents in files:
        found = sizes(parents)
        lines += [numbers, *(f'{t} {size}' for t, size in found.items())]
        structs, total = structs + len(parents), total + sum(found.values())
    return ''.join(f'{text}\n' for text in [*lines, f'{structs} {total}'])

def stored():
    known = {name: (numbers, parents) for name, _, numbers, parents in CASES}
    known[None] = (line(BROKEN), {})
    out = {f'{HERE}/data/{name}': data for name, data, *_ in CASES}
    out[f'{HERE}/data/{INSIDE}'] = out[f'{HERE}/data/one-root']
    out[f'{HERE}/data/hosts'] = read(SAMPLES + '/hosts')
    out[f'{HERE}/args'] = ''.join(f'{name}\n' for name, _ in arguments()).encode()
    out[f'{HERE}/stdout'] = report([known[held] for _, held in arguments()]).encode()
    return out

FILES = stored()
assert len({name for name, *_ in CASES} | {'hosts', 'folder'}) == len(CASES) + 2

if __name__ == '__main__':
    shutil.rmtree(HERE + '/data', ignore_errors=True)
    for path, data in FILES.items():
        os.makedirs(os.path.dirname(path), exist_ok=True)
        with open(path, 'wb') as f:
            f.write(data)
