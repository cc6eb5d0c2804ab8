"""Cases of rule 7: each of the 35 instructions. By docs/FORMAT.md, apart from the definitions."""
from answers import (ARITY, ARRAY_KIND, CAPTURE, CAPTURES, CELL_KIND, CONSTANT, FALLS, FUNCTION, GLOBAL, HOLDS, IMPORT, MAP_KIND, MODIFIER, NAME, PROMOTE,
                     REGISTER, SHAPE, STRUCT_KIND, TABLE, TARGET, TYPE_REF, at, collection)
from sheets import COROUTINE, DYN, I64, MOST, PLAIN, STR, array, cell, fn, func, import_, inst, iter_, map_, param_list, ref, struct

CASES, case = collection()

# Each list has a length of its own, so that a limit taken from another list shows: tables 1, constants 2, imports 3, positions 4, registers 5,
# functions 6, globals 7, type refs 8, names 9, captures 10, call shapes 11, types 12, strings 13.
SHEET = dict(strings=['m', 'f'] + [''] * 11, consts=[PLAIN] * 2, globals_=[[DYN, 0]] * 7, imports=[import_(2), import_(1, params=param_list((2, 0))), import_()],
             types=[fn(), fn([DYN], [DYN]), fn([DYN, DYN]), struct(), array(DYN), map_(DYN, DYN), cell(DYN), iter_(DYN, DYN), COROUTINE] + [COROUTINE] * 3)
REGS = [DYN, I64, DYN, STR, ref(6)]
RET_VOID = inst(1)

# function 1 with that code; beside it functions of no parameter, of one, of none but with a capture, of two, of none
def tried(name, expected, code):
    own = func(0, REGS, shapes=[[]] * 9 + [[(0, 0)] * 2, []], captures=[DYN] * 10, names=[0] * 9, type_refs=[0, 3, 4, 5, 6, 7, 8, 6], tables=[([], 0)],
               code=code)
    case(name, expected, funcs=[func(), own, func(1, [DYN]), func(captures=[DYN]), func(2, [DYN, DYN]), func()], **SHEET)

# what a field indexes: the first two numbers, and how many there are
R = REGISTER, 5
F = FUNCTION, 6
T = TYPE_REF, 8
TARGETS, TABLES, CONSTANTS, GLOBALS, IMPORTS = (TARGET, 4), (TABLE, 1), (CONSTANT, 2), (GLOBAL, 7), (IMPORT, 3)
NAMES, OWN_CAPTURES, SHAPES = (NAME, 9), (CAPTURE, 10), (SHAPE, 11)
WIDTH = dict(a=65535, b=65535, c=65535, w=MOST)

# by code: its name, its fields in order, and what a use has besides the last of each field; bits that are not read are all set
OPS = [
    ('unreachable', {}, dict(a=65535, d=255, w=MOST)),
    ('ret-void', {}, dict(a=65535, d=255, w=MOST)),
    ('ret', dict(a=R), dict(d=255, w=MOST)),
    ('throw', dict(a=R), dict(d=255, w=MOST)),
    ('jmp', dict(w=TARGETS), dict(a=65535, d=255)),
    ('branch', dict(a=R, w=TARGETS), dict(d=255)),
    ('switch', dict(a=R, w=TABLES), dict(d=255)),
    ('tail-call', dict(a=R, w=F), {}),
    ('tail-call-indirect', dict(a=R, b=R), dict(c=65535, d=1)),
    ('i-add', dict(a=R, b=R, c=R), dict(d=255)),
    ('d-add', dict(a=R, b=R, c=R), dict(d=255)),
    ('load-constant', dict(a=R, w=CONSTANTS), dict(d=255)),
    ('load-global', dict(a=R, w=GLOBALS), dict(d=255)),
    ('load-name', dict(a=R, b=R, c=NAMES), dict(d=255)),
    ('load-capture', dict(a=R, b=OWN_CAPTURES), dict(c=65535, d=255)),
    ('call', dict(a=R, w=F), {}),
    ('call-indirect', dict(a=R, b=R), dict(c=65535)),
    ('d-call', dict(a=R, b=R), dict(c=65535)),
    ('coro-new-indirect', dict(a=R, b=R), dict(c=65535)),
    ('spawn', dict(a=R, b=R), dict(c=65535)),
    ('coro-new', dict(a=R, w=F), {}),
    ('call-import', dict(a=R, w=IMPORTS), {}),
    ('make-closure', dict(a=R, w=F), dict(d=255)),
    ('d-call-shape', dict(a=R, b=SHAPES), dict(c=65535, d=255)),
    ('new-struct', dict(a=R, b=T), dict(b=1, c=65535, d=255)),
    ('new-array', dict(a=R, b=T), dict(b=2, c=65535, d=255)),
    ('new-map', dict(a=R, b=T), dict(b=3, c=65535, d=255)),
    ('new-cell', dict(a=R, b=T), dict(c=65535, d=255)),
    ('str-concat-n', dict(a=R, b=R), dict(c=65535, d=1)),
    ('str-slice', dict(a=R, b=R, c=R), dict(c=3, d=255)),
    ('from-dyn', dict(a=R, b=R), dict(c=65535, d=255)),
    ('raise', dict(a=R), dict(d=11, w=MOST)),
    ('float-to-bits', dict(a=R, b=R), dict(c=65535, d=8)),
    ('bits-to-float', dict(a=R, b=R), dict(c=65535, d=8)),
    ('move', dict(a=R, b=R), dict(c=65535, d=255)),
]
CODE = {name: code for code, (name, _, _) in enumerate(OPS)}
ENDS = {0, 1, 2, 3, 4, 6, 7, 8}
# D that breaks the rule of its own, or the window
BREAKS = {7: 255, 8: 255, 9: 3, 10: 3, 15: 255, 16: 255, 17: 255, 18: 255, 19: 255, 20: 255, 21: 255, 28: 255, 30: 13, 31: 255, 32: 0, 33: 0}

# the instruction at position 2, or at the end if it terminates
def used(name, expected, code, **slots):
    op = inst(code, **slots)
    position = 3 if code in ENDS else 2
    expected = expected if expected == HOLDS else at(expected, 1, position)
    tried(name, expected, [RET_VOID] * position + [op] + [RET_VOID] * (3 - position))

for code, (name, fields, besides) in enumerate(OPS):
    lasts = {slot: count - 1 for slot, (_, count) in fields.items()}
    used(name, HOLDS, code, **{**lasts, **besides})
    if name in ('branch', 'i-add', 'call', 'raise', 'move'):
        tried(name + '-last', at(FALLS, 1, 3), [RET_VOID] * 3 + [inst(code, **{**lasts, **besides})])
    # one past the last in this field, the most in all later ones, and its own rule broken too: this field is named
    for slot, (word, count) in fields.items():
        later = {s: WIDTH[s] for s in list(fields)[list(fields).index(slot) + 1:]}
        used(f'{name}-{slot}', word + [count], code, **{**lasts, **besides, **later, slot: count, 'd': BREAKS.get(code, besides.get('d', 0))})

# W has 32 bits: cut to 16 it would be 0
for name, word in (('jmp', TARGET), ('switch', TABLE), ('call', FUNCTION), ('load-constant', CONSTANT), ('load-global', GLOBAL), ('call-import', IMPORT)):
    used(name + '-w-65536', word + [65536], CODE[name], w=65536)
used('ret-a-65535', REGISTER + [65535], CODE['ret'], a=65535)
used('str-slice-c-65535', REGISTER + [65535], CODE['str-slice'], c=65535)

# ── windows from A + 1, from A, from B, from C ──
for name in ('call-indirect', 'd-call', 'coro-new-indirect', 'spawn'):
    used(name + '-window', HOLDS, CODE[name], a=2, d=2)
    used(name + '-window-one-late', REGISTER + [5], CODE[name], a=3, d=2)
used('d-call-window-of-4', REGISTER + [7], CODE['d-call'], a=3, d=4)
used('d-call-window-of-255', REGISTER + [259], CODE['d-call'], a=4, d=255)
used('tail-call-indirect-window', HOLDS, CODE['tail-call-indirect'], a=3, d=2)
used('tail-call-indirect-window-one-late', REGISTER + [5], CODE['tail-call-indirect'], a=4, d=2)
used('tail-call-indirect-window-of-255', REGISTER + [258], CODE['tail-call-indirect'], a=4, d=255)
used('make-closure-window', HOLDS, CODE['make-closure'], a=3, w=3)
used('make-closure-window-one-late', REGISTER + [5], CODE['make-closure'], a=4, w=3)
used('make-closure-of-itself', REGISTER + [10], CODE['make-closure'], w=1)
used('d-call-shape-window', HOLDS, CODE['d-call-shape'], a=2, b=9)
used('d-call-shape-window-one-late', REGISTER + [5], CODE['d-call-shape'], a=3, b=9)
used('str-concat-n-window', HOLDS, CODE['str-concat-n'], a=4, b=2, d=3)
used('str-concat-n-window-one-late', REGISTER + [5], CODE['str-concat-n'], b=3, d=3)
used('str-concat-n-of-none', HOLDS, CODE['str-concat-n'], b=4)
used('str-concat-n-of-255', REGISTER + [254], CODE['str-concat-n'], d=255)
used('str-slice-window-one-late', REGISTER + [5], CODE['str-slice'], c=4)

# ── callees: window, arity, captures ──
for name, reach in (('tail-call', 0), ('call', 1), ('coro-new', 1)):
    code, last = CODE[name], 4 - reach
    used(name + '-of-two', HOLDS, code, a=last - 1, d=2, w=4)
    used(name + '-window-one-late', REGISTER + [5], code, a=last, d=2, w=4)
    used(name + '-one-short', ARITY + [2, 1], code, a=1, d=1, w=4)
    used(name + '-one-more', ARITY + [2, 3], code, a=1, d=3, w=4)
    used(name + '-with-captures', CAPTURES, code, w=3)
    used(name + '-of-itself-with-captures', CAPTURES, code, w=1)
    used(name + '-window-before-arity', REGISTER + [5], code, a=last - 2, d=4, w=4)
    used(name + '-arity-before-captures', ARITY + [0, 1], code, d=1, w=3)
used('call-import-of-two', HOLDS, CODE['call-import'], a=2, d=2, w=0)
used('call-import-window-one-late', REGISTER + [5], CODE['call-import'], a=3, d=2, w=0)
used('call-import-one-short', ARITY + [2, 1], CODE['call-import'], d=1, w=0)
used('call-import-one-more', ARITY + [2, 3], CODE['call-import'], d=3, w=0)
used('call-import-window-before-arity', REGISTER + [5], CODE['call-import'], a=1, d=4, w=0)
used('call-import-optional-left-out', ARITY + [1, 0], CODE['call-import'], w=1)

# what takes a sheet of its own: 255 and 256 parameters, many captures or shape entries, no register at all
def alone(name, expected, code, regs, *others, types=(fn(),), shapes=(), **slots):
    case(name, expected if expected == HOLDS else at(expected, 0, 0), types=types, strings=['m', 'f'], imports=[import_(len(types) - 1)],
         funcs=[func(0, regs, shapes=shapes, code=[inst(code, **slots), RET_VOID])] + list(others))

MANY = [fn(), fn([DYN] * 256)]
for name in ('tail-call', 'call', 'coro-new'):
    alone(name + '-of-256', ARITY + [256, 0], CODE[name], [DYN] * 2, func(1, [DYN] * 256), types=MANY, w=1)
alone('call-import-of-256', ARITY + [256, 0], CODE['call-import'], [DYN] * 2, types=MANY)
alone('call-of-255', HOLDS, CODE['call'], [DYN] * 256, func(1, [DYN] * 255), types=[fn(), fn([DYN] * 255)], d=255, w=1)
alone('call-import-of-255', HOLDS, CODE['call-import'], [DYN] * 256, types=[fn(), fn([DYN] * 255)], d=255)
alone('make-closure-of-300', HOLDS, CODE['make-closure'], [DYN] * 302, func(captures=[DYN] * 300), a=1, w=1)
alone('make-closure-of-300-in-two-registers', REGISTER + [301], CODE['make-closure'], [DYN] * 2, func(captures=[DYN] * 300), a=1, w=1)
alone('make-closure-of-256', REGISTER + [256], CODE['make-closure'], [DYN], func(captures=[DYN] * 256), w=1)
alone('d-call-shape-of-301', HOLDS, CODE['d-call-shape'], [DYN] * 302, shapes=[[(0, 0)] * 301])
alone('d-call-shape-of-301-one-late', REGISTER + [302], CODE['d-call-shape'], [DYN] * 302, shapes=[[(0, 0)] * 301], a=1)
for name in ('tail-call', 'str-concat-n', 'move'):
    alone(name + '-without-registers', REGISTER + [0], CODE[name], [])
alone('ret-void-without-registers', HOLDS, CODE['ret-void'], [])

# ── promote: registers dyn, i64, dyn, str, a cell of dyn ──
for d in (2, 4):
    used(f'i-add-d-{d}', HOLDS, CODE['i-add'], a=1, d=d)
    used(f'd-add-d-{d}', HOLDS, CODE['d-add'], a=1, d=d)
used('i-add-promote-into-dyn', PROMOTE, CODE['i-add'], d=3)
used('i-add-promote-into-i64', PROMOTE, CODE['i-add'], a=1, d=3)
used('d-add-promote-into-dyn', HOLDS, CODE['d-add'], a=2, b=1, c=3, d=3)
for a, kind in ((1, 'i64'), (3, 'str'), (4, 'a-cell-of-dyn')):
    used('d-add-promote-into-' + kind, PROMOTE, CODE['d-add'], a=a, d=3)

# ── types of the right kind: type refs 0 to 6 are a func, a struct, an array, a map, a cell, an iter, a coroutine ──
KINDS = ['func', 'struct', 'array', 'map', 'cell', 'iter', 'coroutine']
for name, wrong, others in (('struct', STRUCT_KIND, (0, 2, 3, 4, 6)), ('array', ARRAY_KIND, (1, 3, 4)), ('map', MAP_KIND, (1, 2, 4, 5)),
                            ('cell', CELL_KIND, (1, 2, 3))):
    for b in others:
        used(f'new-{name}-of-{KINDS[b]}', wrong, CODE['new-' + name], b=b)

# ── modifiers ──
for d in (12, 14):
    used(f'from-dyn-d-{d}', HOLDS, CODE['from-dyn'], d=d)
used('from-dyn-d-13', MODIFIER, CODE['from-dyn'], d=13)
used('raise-d-0', HOLDS, CODE['raise'])
for d in (12, 255):
    used(f'raise-d-{d}', MODIFIER, CODE['raise'], d=d)
for name in ('float-to-bits', 'bits-to-float'):
    for d in (3, 4, 7):
        used(f'{name}-d-{d}', HOLDS, CODE[name], d=d)
    for d in (0, 2, 5, 6, 9):
        used(f'{name}-d-{d}', MODIFIER, CODE[name], d=d)
