#!/usr/bin/env python3
"""Writes what the program `trial` is run on: octet sequences of RFC 3629 in a sheet and in a host list, and further sheets (data/), its arguments, and what it must print.

By docs/FORMAT.md, apart from the definitions; the lengths of tables are counted by hand, as the terms show. The program takes at most
16 blocks.
"""
from answers import ARITY, BROKEN, DEEP, EXPORTED, EXPORT_NAME, REGISTER, UNRESOLVED, at, collection, line
from sheets import (COROUTINE, DYN, I64, STR, array, cell, entries, fn, func, host_list, import_, inst, items, iter_, map_, param_list, ref, struct, text, write)

CASES, case = collection()
HOSTS = [('m', 'f', False), ('m', 'g', True)]
NOT_A_LIST = [23]

# a header of ten words, eight counts, a word for each of the 31 hooks
EMPTY = 10 + 8 + 31

# record, canonical number and span of a type
FN = COROUTINE_TYPE = 1 + 1 + 3
ARRAY = CELL = 2 + 1 + 3
MAP = ITER = 3 + 1 + 3
IMPORT = 2
# signature, registers, parameters, result, and six lists without members, the catch table's being 0
FUNC = 4 + 6

# kind and parent, four lists, canonical number and span; a name and a method are two words each
def struct_type(fields=0, references=0, names=0, methods=0):
    return 2 + 4 + 1 + 3 + fields + references + 2 * names + 2 * methods

def accepted(*words):
    return [0, 0, EMPTY + sum(words)]

case('empty', accepted())
CASES.append(('no-bytes', b'', line(BROKEN)))
# the editions of a sheet, and of a host list, which has the first alone
for edition, expected in ((0, BROKEN), (2, accepted()), (3, BROKEN)):
    case(f'edition-{edition}', expected, edition=edition)
    CASES.append((f'H-edition-{edition}', host_list([], edition), line(NOT_A_LIST)))
CASES.append(('H-edition-1', host_list([]), line(accepted())))

# ── RFC 3629: a sheet of one string, a host list of one module ──
def octets(expected, *sequences):
    for sequence in sequences:
        case('octets-' + sequence.replace(' ', '-'), expected, strings=[bytes.fromhex(sequence)])
        CASES.append(('H-' + sequence.replace(' ', '-'), host_list([(bytes.fromhex(sequence), 'f', False)]), line(expected if expected[0] == 0 else NOT_A_LIST)))

# section 7: A<not identical to><Alpha>., hangugeo, nihongo, and a signature before U+233B4
octets(accepted(), '41 E2 89 A2 CE 91 2E', 'ED 95 9C EA B5 AD EC 96 B4', 'E6 97 A5 E6 9C AC E8 AA 9E', 'EF BB BF F0 A3 8E B4')
# section 10: U+0000 and U+002E in longer forms; surrogates as CESU-8 has them
octets(BROKEN, 'C0 80', '2F C0 AE 2E 2F', 'ED A1 8C ED BE B4')
# section 4: the first and last of each row, and one beyond
octets(accepted(), '00', '7F', 'C2 80', 'DF BF', 'E0 A0 80', 'ED 9F BF', 'EE 80 80', 'EF BF BF', 'F0 90 80 80', 'F4 8F BF BF')
octets(BROKEN, 'C1 BF', 'E0 80 80', 'E0 9F BF', 'ED A0 80', 'ED BF BF', 'F0 80 80 80', 'F0 8F BF BF', 'F4 90 80 80', 'F5 80 80 80', 'FE', 'FF')
# a tail alone, one too many, and sequences that are cut off, at the end and before another
octets(BROKEN, '80', 'BF', 'C3 A9 A9', 'C3', 'E2 89', 'F0 A3 8E', 'C3 41', 'E2 89 41', 'F0 A3 8E 41', 'C2 7F', 'C2 C0')

# ── types ──
case('each-kind-of-type', accepted(FN, struct_type(), ARRAY, MAP, CELL, ITER, COROUTINE_TYPE), strings=['s'],
     types=[fn([I64], [DYN]), struct(), array(ref(1)), map_(STR, ref(2)), cell(DYN), iter_(I64, I64), COROUTINE])
case('family-before-its-root', accepted(3 * struct_type()), strings=['s'], types=[struct(parent=2), struct(parent=2), struct()])
# the root's fields are the first of each child's
case('family-with-fields', accepted(struct_type(2, 1, 2), struct_type(3, 2, 3), struct_type(2, 1, 2)), strings=['x', 'y', 'z'],
     types=[struct([(0, I64), (1, STR)]), struct([(0, I64), (1, STR), (2, DYN)], parent=0), struct([(0, I64), (1, STR)], parent=0)])

# so many structs on one chain
def chain(n):
    return dict(strings=['s'], types=[struct()] + [struct(parent=k) for k in range(n - 1)])

for n in (65, 256):
    case(f'family-of-{n}', accepted(n * struct_type()), **chain(n))
case('family-of-257', DEEP, **chain(257))
case('family-of-64-of-edition-2', accepted(64 * struct_type()), edition=2, **chain(64))
for n in (65, 256):
    case(f'family-of-{n}-of-edition-2', DEEP, edition=2, **chain(n))
case('own-parent-of-edition-2', DEEP, strings=['s'], types=[struct(parent=0)], edition=2)
case('own-parent', DEEP, strings=['s'], types=[struct(parent=0)])
# strings 0 and 1 are equal: two names for four fields, and two for three methods
SHARED = dict(strings=['a', 'a', 'b'])
case('fields-sharing-names', accepted(struct_type(4, 2, 2)), types=[struct([(0, I64), (1, STR), (0, DYN), (2, I64)])], **SHARED)
case('methods-sharing-names', accepted(struct_type(methods=2), FN, FUNC), types=[struct(methods=[(1, 0), (0, 0), (2, 0)]), fn()], funcs=[func(1)], **SHARED)

# ── functions ──
# seven positions, a register of dyn that is a reference
def caught(name, expected, *handlers):
    case(name, expected, types=[fn()], funcs=[func(regs=[DYN], code=[inst(1)] * 7, handlers=handlers)])

HANDLERS = [(2, 6, 0, 0), (0, 4, 0, 0)] + [(0, 1, 0, 0)] * 7
caught('eight-handlers', accepted(FN, FUNC, 2), *HANDLERS[:8])
caught('nine-handlers', accepted(FN, FUNC, 2, 1 + 7), *HANDLERS)
case('lists-of-a-function', accepted(FN, struct_type(), FUNC, 3 + 1 + 2 + 2 + 1), strings=['s', 's'], types=[fn([I64], [DYN]), struct()],
     funcs=[func(regs=[I64, DYN, I64], captures=[DYN, I64], names=[1, 0], type_refs=[1], code=[inst(2, 1)])])

def called(name, expected, a):
    case(name, expected, types=[fn(), fn([I64, I64])], funcs=[func(regs=[I64] * 5, code=[inst(15, a, d=2, w=1), inst(1)]), func(1, [I64, I64])])

called('call-window-holds', accepted(2 * FN, 2 * FUNC, 5 + 2), 2)
called('call-window-past-the-frame', at(REGISTER + [5], 0, 0), 3)

# ── imports, globals, constants, hooks, start, exports ──
MF = dict(strings=['m', 'f', 'g'])
case('imports', accepted(2 * FN, 2 * IMPORT), types=[fn(), fn([DYN], [DYN])], imports=[import_(params=param_list()), import_(1, name=2)], **MF)
# an import with one mandatory parameter of two, called with so many arguments: the second edition takes one, the first two alone
CALLED = accepted(2 * FN, IMPORT, FUNC, 4)
for name, d, second, first in (('none', 0, [1, 0], [2, 0]), ('mandatory', 1, None, [2, 1]), ('all', 2, None, None),
                               ('one-more', 3, [2, 3], [2, 3])):
    OPTIONAL = dict(types=[fn(), fn([I64, I64])], imports=[import_(1, params=param_list((0, 0), (2, 0)))],
                    funcs=[func(regs=[I64] * 4, code=[inst(21, d=d), inst(1)])], **MF)
    case(f'arguments-{name}', at(ARITY + first, 0, 0) if first else CALLED, **OPTIONAL)
    case(f'arguments-{name}-of-edition-2', at(ARITY + second, 0, 0) if second else CALLED, edition=2, **OPTIONAL)
case('import-unresolved', UNRESOLVED + [1, 2], types=[fn()], imports=[import_(module=1, name=2)], **MF)
case('globals', accepted(CELL, 4, 3), types=[cell(DYN)], globals_=[(I64, 0), (STR, 0), (DYN, 0), (ref(0), 0)])
case('constants', accepted(2), strings=['t'], consts=[[0, 7, 8], text(0), items(0, 1), entries((0, 2), (1, 1)), items()], globals_=[(DYN, 4)])
# hook 0 ends bound to function 1, hook 1 to the import
case('hooks-bound-twice', accepted(FN, 2 * FUNC, 4, IMPORT), types=[fn([DYN], [DYN])], imports=[import_()], funcs=[func(regs=[DYN])] * 2,
     hooks=[(0, 1, 0), (1, 0, 0), (0, 0, 1), (1, 1, 0)], **MF)
ITEMS = dict(types=[fn()], globals_=[(I64, 0)], funcs=[func()], start=1)
case('start-and-exports', accepted(FN, FUNC, 1), exports=[(0, 9, 0), (1, 9, 0), (2, 9, 0)], **ITEMS)
# the second edition reads the names of exports: strings 0 and 1 are equal
for name, expected, names in (('named', accepted(FN, FUNC, 1), (0, 2, 3)), ('named-past-the-strings', EXPORT_NAME + [4], (0, 2, 4)),
                              ('named-twice', EXPORTED + [1], (2, 2, 4)), ('named-alike', EXPORTED + [2], (0, 2, 1))):
    EXPORTS = dict(strings=['a', 'a', 'b', ''], exports=[(kind, number, 0) for kind, number in enumerate(names)], **ITEMS)
    case(f'exports-{name}', accepted(FN, FUNC, 1), **EXPORTS)
    case(f'exports-{name}-of-edition-2', expected, edition=2, **EXPORTS)

# N = 11 + 2,021 = 2,032 words fill 16 blocks; a block more counts as no bytes
case('sixteen-blocks', accepted(2021 * COROUTINE_TYPE), types=[COROUTINE] * 2021)
case('seventeen-blocks', BROKEN, types=[COROUTINE] * 2022)

if __name__ == '__main__':
    write('trial', CASES, line(BROKEN), host_list(HOSTS))
