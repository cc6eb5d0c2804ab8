"""Cases of rules 5 and 6: imports, globals, and every function's record. By docs/FORMAT.md, apart from the definitions."""
from answers import BAD_CONSTANT, CALL_SHAPE, CONSTANT, HOLDS, PARAMS, PARAM_LIST, SIGNATURE, STRING, TYPE, UNRESOLVED, at, collection
from sheets import (COROUTINE, DYN, F64, I64, I8, MOST, NO_LIST, PLAIN, STR, array, cell, fn, func, import_, inst, items, iter_, map_, param_list, ref,
                    struct)

CASES, case = collection()

# the stored host list: module, name, and whether it is the scheduler; more than one block of it
HOSTS = [('desk', 'price', False), ('desk', 'spawn', True), ('shop', 'spawn', False), ('m', 'f', False), ('', '', False), ('a', 'bc', False),
         ('ab', 'c', True), ('Aufzug nach ganz oben', 'Tarif für zehn Stockwerke', False), ('日本語', 'é', False)]
HOSTS += [('extra', f'entry {k}', False) for k in range(60)] + [('last', 'entry', True)]

OTHERS = (('struct', struct()), ('array', array(I8)), ('map', map_(I8, I8)), ('cell', cell(I8)), ('iter', iter_(I8, I8)), ('coroutine', COROUTINE))
BAD_LIST = param_list((4, 0))

# ── rule 5: imports ──
MF = dict(strings=['m', 'f'])
UNIT = dict(types=[fn()], **MF)
case('import', HOLDS, imports=[import_()], **UNIT)
case('import-signature-absent', TYPE + [1], imports=[import_(1)], **UNIT)
case('import-signature-most', TYPE + [MOST], imports=[import_(MOST)], **UNIT)
for name, other in OTHERS:
    case('import-signature-is-' + name, SIGNATURE, types=[other], imports=[import_()], **MF)
case('import-signature-before-strings', TYPE + [9], imports=[import_(9, 7, 8)])
case('import-signature-kind-before-strings', SIGNATURE, types=[COROUTINE], imports=[import_(0, 7, 8)])
case('import-signature-before-lookup', TYPE + [1], types=[fn()], strings=['m', 'g'], imports=[import_(1)])
case('import-module-absent', STRING + [2], imports=[import_(module=2)], **UNIT)
case('import-name-absent', STRING + [2], imports=[import_(name=2)], **UNIT)
case('import-strings-absent-module-larger', STRING + [5], imports=[import_(module=5, name=3)], **UNIT)
case('import-strings-absent-name-larger', STRING + [5], imports=[import_(module=3, name=5)], **UNIT)
case('import-module-most', STRING + [MOST], imports=[import_(module=MOST)], **UNIT)
case('import-strings-before-parameter-list', STRING + [2], imports=[import_(name=2, params=BAD_LIST)], **UNIT)

# lookup, by text and by pairs
def wants(name, expected, module, of, sig=fn()):
    case(name, expected, strings=[module, of], types=[sig], imports=[import_()])

NOWHERE = UNRESOLVED + [0, 1]
wants('lookup-without-text', HOLDS, '', '')
wants('lookup-across-words', HOLDS, 'Aufzug nach ganz oben', 'Tarif für zehn Stockwerke')
wants('lookup-beyond-ascii', HOLDS, '日本語', 'é')
wants('lookup-other-last-byte', NOWHERE, 'Aufzug nach ganz oben', 'Tarif für zehn Stockwerkf')
wants('lookup-other-first-byte', NOWHERE, 'aufzug nach ganz oben', 'Tarif für zehn Stockwerke')
wants('lookup-other-module', NOWHERE, 'n', 'f')
wants('lookup-other-name', NOWHERE, 'm', 'g')
wants('lookup-swapped', NOWHERE, 'f', 'm')
wants('lookup-parts-of-two-entries', NOWHERE, 'desk', 'f')
wants('lookup-joined-texts', NOWHERE, 'abc', '')
wants('lookup-name-cut', NOWHERE, 'desk', 'pric')
wants('lookup-name-longer', NOWHERE, 'desk', 'prices')
wants('lookup-zero-byte', NOWHERE, 'm\0', 'f')
wants('lookup-last-filler', HOLDS, 'extra', 'entry 59')
wants('lookup-one-past-the-fillers', NOWHERE, 'extra', 'entry 60')
case('lookup-under-other-numbers', HOLDS, types=[fn()], strings=['m', 'f', 'm', 'f'], imports=[import_(module=2, name=3)])
case('lookup-numbers-as-stored', UNRESOLVED + [2, 3], types=[fn()], strings=['a', 'b', 'a', 'b'], imports=[import_(module=2, name=3)])
case('lookup-module-above-name', UNRESOLVED + [1, 0], types=[fn()], strings=['g', 'm'], imports=[import_(module=1, name=0)])
case('lookup-one-number-for-both', UNRESOLVED + [0, 0], types=[fn()], strings=['m'], imports=[import_(name=0)])
case('lookup-before-parameter-list', NOWHERE, types=[fn()], strings=['m', 'g'], imports=[import_(params=BAD_LIST)])

# the scheduler's shape
def schedules(name, expected, *types, params=NO_LIST, strings=('desk', 'spawn')):
    case(name, expected, strings=strings, types=types, imports=[import_(params=params)])

DYN_TO_DYN = fn([DYN], [DYN])
schedules('scheduler', HOLDS, DYN_TO_DYN)
schedules('scheduler-no-parameter', SIGNATURE, fn([], [DYN]))
schedules('scheduler-two-parameters', SIGNATURE, fn([DYN, DYN], [DYN]))
schedules('scheduler-no-result', SIGNATURE, fn([DYN]))
schedules('scheduler-parameter-str', SIGNATURE, fn([STR], [DYN]))
schedules('scheduler-parameter-cell-of-dyn', SIGNATURE, fn([ref(1)], [DYN]), cell(DYN))
schedules('scheduler-result-str', SIGNATURE, fn([DYN], [STR]))
schedules('scheduler-result-cell-of-dyn', SIGNATURE, fn([DYN], [ref(1)]), cell(DYN))
schedules('scheduler-shape-before-parameter-list', SIGNATURE, fn([DYN]), params=BAD_LIST)
schedules('scheduler-with-a-list', HOLDS, DYN_TO_DYN, params=param_list((3, 1)))
schedules('scheduler-with-a-broken-list', PARAM_LIST, DYN_TO_DYN, params=BAD_LIST)
schedules('scheduler-last-of-the-list', SIGNATURE, fn(), strings=['last', 'entry'])
schedules('scheduler-by-its-pair', SIGNATURE, fn(), strings=['ab', 'c'])
schedules('user-under-the-scheduler-name', HOLDS, fn(), strings=['shop', 'spawn'])
schedules('user-by-its-pair', HOLDS, fn(), strings=['a', 'bc'])
schedules('user-of-any-shape', HOLDS, fn([I8, STR, ref(1)], [F64]), COROUTINE, strings=['m', 'f'])

# several imports
case('imports-one-twice', HOLDS, imports=[import_(), import_()], **UNIT)
case('imports-second-broken', TYPE + [9], imports=[import_(), import_(9)], **UNIT)
case('imports-lookup-before-next-signature', UNRESOLVED + [1, 0], imports=[import_(module=1, name=0), import_(9)], **UNIT)
case('imports-list-before-next-signature', PARAM_LIST, imports=[import_(params=BAD_LIST), import_(9)], **UNIT)
case('imports-of-two-unresolved-the-first', UNRESOLVED + [2, 3], types=[fn()], strings=['a', 'b', 'a', 'b'],
     imports=[import_(module=2, name=3), import_()])
case('constants-before-imports', BAD_CONSTANT, consts=[items(0)], imports=[import_(9)])

# ── rule 5: globals ──
case('global-of-each-kind', HOLDS, types=[COROUTINE], globals_=[[v, 0] for v in range(13)] + [[ref(0), 0]])
case('global-type', TYPE + [1], types=[COROUTINE], globals_=[[ref(1), 0]])
case('global-type-most', TYPE + [MOST - 16], types=[COROUTINE], globals_=[[MOST, 0]])
case('global-constant', HOLDS, consts=[PLAIN, items()], globals_=[[DYN, 1], [I8, 2]])
case('global-constant-absent', CONSTANT + [2], consts=[PLAIN, items()], globals_=[[DYN, 3]])
case('global-constant-without-constants', CONSTANT + [0], globals_=[[DYN, 1]])
case('global-constant-most', CONSTANT + [MOST - 1], consts=[PLAIN], globals_=[[DYN, MOST]])
case('global-type-before-constant', TYPE + [5], globals_=[[ref(5), 9]])
case('globals-one-by-one', CONSTANT + [8], globals_=[[DYN, 9], [ref(5), 0]])
case('globals-second-broken', TYPE + [5], globals_=[[DYN, 0], [ref(5), 0]])
case('imports-before-globals', PARAM_LIST, imports=[import_(params=BAD_LIST)], globals_=[[ref(5), 0]], **UNIT)
case('globals-before-functions', CONSTANT + [0], globals_=[[DYN, 1]], funcs=[func(9)])

# ── rule 6: signature, registers, parameters ──
U = dict(types=[fn()])
case('function', HOLDS, funcs=[func()], **U)
case('function-signature-absent', at(TYPE + [9], 0), funcs=[func(9, code=[])])
case('function-signature-at-the-limit', at(TYPE + [1], 0), funcs=[func(1)], **U)
for name, other in OTHERS:
    case('function-signature-is-' + name, at(SIGNATURE, 0), types=[other], strings=['s'], funcs=[func()])
case('registers-of-each-kind', HOLDS, funcs=[func(0, [*range(13), ref(0)])], **U)
case('register-type', at(TYPE + [1], 0), funcs=[func(0, [DYN, ref(1)])], **U)
case('register-type-most', at(TYPE + [MOST - 16], 0), funcs=[func(0, [MOST])], **U)
case('register-first-of-types', at(TYPE + [8], 0), funcs=[func(0, [ref(8), ref(7)])], **U)

def takes(name, expected, params, regs, *types):
    case(name, expected, strings=['s'], types=[fn(params)] + list(types), funcs=[func(0, regs)])

NOT_FIRST = at(PARAMS, 0)
takes('params', HOLDS, [I8, DYN], [I8, DYN])
takes('params-and-more-registers', HOLDS, [I8], [I8, STR, DYN])
takes('params-without-registers', NOT_FIRST, [I8], [])
takes('params-one-register-short', NOT_FIRST, [I8, DYN], [I8])
takes('params-first-differs', NOT_FIRST, [I8, DYN], [I64, DYN])
takes('params-last-differs', NOT_FIRST, [I8, DYN], [I8, STR, DYN])
takes('params-in-other-order', NOT_FIRST, [I8, DYN], [DYN, I8])
takes('params-equal-types', HOLDS, [ref(1)], [ref(2)], COROUTINE, COROUTINE)
takes('params-equal-types-the-later-in-the-signature', HOLDS, [ref(2)], [ref(1)], COROUTINE, COROUTINE)
takes('params-equal-func-types', HOLDS, [ref(1)], [ref(2)], fn([I8], [DYN]), fn([I8], [DYN]))
takes('params-equal-structs', NOT_FIRST, [ref(1)], [ref(2)], struct(), struct())
takes('params-the-same-struct', HOLDS, [ref(1)], [ref(1)], struct(), struct())
takes('params-arrays-of-equal-types', NOT_FIRST, [ref(3)], [ref(4)], COROUTINE, COROUTINE, array(ref(1)), array(ref(2)))
takes('params-cell-for-dyn', NOT_FIRST, [DYN], [ref(1)], cell(DYN))

# ── rule 6: parameter lists ──
# types 1 to 9 beside the signature; strings a, b, a
BESIDE = [cell(DYN), cell(I64), cell(STR), cell(ref(1)), array(DYN), struct(), COROUTINE, fn(), cell(DYN)]

def lists(name, expected, params, *members):
    case(name, expected, strings=['a', 'b', 'a'], types=[fn(params)] + BESIDE, funcs=[func(0, params, param_list(*members))])

NO_GOOD = at(PARAM_LIST, 0)
lists('list-of-none', HOLDS, [])
for flags in range(4):
    lists(f'list-flags-{flags}', HOLDS, [DYN], (flags, 0))
for flags in (4, 256, MOST):
    lists(f'list-flags-{flags}', NO_GOOD, [DYN], (flags, 0))
lists('list-flags-of-the-second', NO_GOOD, [DYN, DYN], (0, 0), (4, 0))
lists('list-one-short', NO_GOOD, [DYN, DYN], (0, 0))
lists('list-one-more', NO_GOOD, [DYN], (0, 0), (0, 0))
lists('list-empty-for-one', NO_GOOD, [DYN])
lists('list-of-one-for-none', NO_GOOD, [], (0, 0))
for name, expected, v in (('i64', NO_GOOD, I64), ('str', NO_GOOD, STR), ('a-cell-of-dyn', HOLDS, ref(1)), ('a-later-cell-of-dyn', HOLDS, ref(9)),
                          ('a-cell-of-i64', NO_GOOD, ref(2)), ('a-cell-of-str', NO_GOOD, ref(3)), ('a-cell-of-a-cell', NO_GOOD, ref(4)),
                          ('an-array-of-dyn', NO_GOOD, ref(5)), ('a-struct', NO_GOOD, ref(6)), ('a-coroutine', NO_GOOD, ref(7)), ('a-func', NO_GOOD, ref(8))):
    lists('list-by-reference-' + name, expected, [v], (1, 0))
lists('list-by-value-i64', HOLDS, [I64], (2, 0))
lists('list-by-reference-and-optional-i64', NO_GOOD, [I64], (3, 0))
lists('list-by-reference-the-second', HOLDS, [I64, DYN], (0, 0), (1, 0))
lists('list-by-reference-the-second-i64', NO_GOOD, [DYN, I64], (0, 0), (1, 0))
lists('list-optional-last', HOLDS, [DYN] * 3, (0, 0), (2, 0), (3, 0))
lists('list-mandatory-after-optional', NO_GOOD, [DYN] * 2, (2, 0), (0, 0))
lists('list-mandatory-by-reference-after-optional', NO_GOOD, [DYN] * 2, (2, 0), (1, 0))
lists('list-mandatory-after-optional-by-reference', NO_GOOD, [DYN] * 2, (3, 0), (0, 0))
lists('list-mandatory-after-two-optional', NO_GOOD, [DYN] * 3, (2, 0), (2, 0), (0, 0))
lists('list-name-last', HOLDS, [DYN], (0, 3))
lists('list-name-absent', NO_GOOD, [DYN], (0, 4))
lists('list-name-most', NO_GOOD, [DYN], (0, MOST))
lists('list-name-absent-second', NO_GOOD, [DYN] * 2, (0, 1), (0, 4))
lists('list-name-twice', NO_GOOD, [DYN] * 2, (0, 2), (0, 2))
lists('list-name-twice-apart', NO_GOOD, [DYN] * 3, (0, 1), (0, 0), (2, 1))
lists('list-name-twice-by-text', HOLDS, [DYN] * 2, (0, 1), (0, 3))
lists('list-no-name-twice', HOLDS, [DYN] * 3, (0, 0), (0, 0), (0, 1))
case('list-name-without-strings', NO_GOOD, types=[fn([DYN])], funcs=[func(0, [DYN], param_list((0, 1)))])
# of an import: the same tests, and no function in the answer
ONE = dict(types=[fn([DYN])] + BESIDE, **MF)
case('import-list', HOLDS, imports=[import_(params=param_list((3, 2)))], **ONE)
for name, members in (('flags', [(4, 0)]), ('count', []), ('name', [(0, 3)])):
    case('import-list-' + name, PARAM_LIST, imports=[import_(params=param_list(*members))], **ONE)
for name, members in (('name-twice', [(0, 1), (0, 1)]), ('mandatory-after-optional', [(2, 0), (0, 0)]), ('by-reference-i64', [(0, 0), (1, 0)])):
    case('import-list-' + name, PARAM_LIST, types=[fn([DYN, I64])], imports=[import_(params=param_list(*members))], **MF)
case('import-list-by-reference-a-cell-of-i64', PARAM_LIST, types=[fn([ref(1)]), cell(I64)], imports=[import_(params=param_list((1, 0)))], **MF)

# ── rule 6: call shapes ──
def shaped(name, expected, *shapes):
    case(name, expected, strings=['a', 'b', 'a'], types=[fn()], funcs=[func(shapes=shapes)])

POSITIONAL, SPREAD = (0, MOST), (2, MOST)
def named(s):
    return (1, s)

BAD_SHAPE = at(CALL_SHAPE, 0)
shaped('shape-empty', HOLDS, [], [])
shaped('shape-of-each-kind', HOLDS, [POSITIONAL, SPREAD, POSITIONAL, named(0), named(1)])
shaped('shape-kind-3', BAD_SHAPE, [(3, 0)])
shaped('shape-kind-most', BAD_SHAPE, [POSITIONAL, (MOST, 0)])
shaped('shape-kind-257', BAD_SHAPE, [(257, 0)])
shaped('shape-positional-after-named', BAD_SHAPE, [named(0), POSITIONAL])
shaped('shape-positional-after-named-and-spread', BAD_SHAPE, [named(0), SPREAD, POSITIONAL])
shaped('shape-spread-after-named', HOLDS, [named(0), SPREAD, named(1), SPREAD])
shaped('shape-name-twice', BAD_SHAPE, [named(1), named(1)])
shaped('shape-name-twice-apart', BAD_SHAPE, [named(0), named(1), SPREAD, named(0)])
shaped('shape-name-twice-by-text', HOLDS, [named(0), named(2)])
shaped('shape-name-in-two-shapes', HOLDS, [named(0)], [named(0)])
shaped('shape-name-unread-but-for-kind-1', HOLDS, [(0, 1), (2, 1), named(1), (2, 1)])
shaped('shape-name-absent', BAD_SHAPE, [named(3)])
shaped('shape-name-most', BAD_SHAPE, [named(0), named(MOST)])
shaped('shape-second-broken', BAD_SHAPE, [named(0)], [(3, 0)])
shaped('shape-second-starts-anew', HOLDS, [named(0)], [POSITIONAL, named(0)])
shaped('shape-of-301', HOLDS, [POSITIONAL] * 100 + [named(0)] + [SPREAD] * 200)

# ── rule 6: captures, names, type refs ──
S2 = dict(types=[fn(), COROUTINE], strings=['a', 'b'])
case('captures', HOLDS, funcs=[func(captures=[*range(13), ref(1)])], **S2)
case('capture-type', at(TYPE + [2], 0), funcs=[func(captures=[DYN, ref(2)])], **S2)
case('capture-type-most', at(TYPE + [MOST - 16], 0), funcs=[func(captures=[MOST])], **S2)
case('names', HOLDS, funcs=[func(names=[1, 0, 1])], **S2)
case('name-absent', at(STRING + [2], 0), funcs=[func(names=[1, 2])], **S2)
case('name-most', at(STRING + [MOST], 0), funcs=[func(names=[MOST])], **S2)
case('type-refs', HOLDS, funcs=[func(type_refs=[1, 0, 1])], **S2)
case('type-ref-absent', at(TYPE + [2], 0), funcs=[func(type_refs=[1, 2])], **S2)
case('type-ref-most', at(TYPE + [MOST], 0), funcs=[func(type_refs=[MOST])], **S2)

# ── rule 6: one part after the other, one function after the other ──
P1 = dict(types=[fn([DYN])])
case('signature-before-registers', at(TYPE + [9], 0), funcs=[func(9, [ref(8)])], **P1)
case('signature-kind-before-registers', at(SIGNATURE, 0), types=[COROUTINE], funcs=[func(0, [ref(8)])])
case('registers-before-params', at(TYPE + [8], 0), funcs=[func(0, [I8, ref(8)])], **P1)
case('params-before-list', at(PARAMS, 0), funcs=[func(0, [I8], BAD_LIST)], **P1)
case('list-before-shapes', at(PARAM_LIST, 0), funcs=[func(0, [DYN], BAD_LIST, [[(3, 0)]])], **P1)
case('shapes-before-captures', at(CALL_SHAPE, 0), funcs=[func(shapes=[[(3, 0)]], captures=[ref(8)])], **U)
case('captures-before-names', at(TYPE + [8], 0), funcs=[func(captures=[ref(8)], names=[7])], **U)
case('names-before-type-refs', at(STRING + [7], 0), funcs=[func(names=[7], type_refs=[8])], **U)
case('type-refs-before-code', at(TYPE + [8], 0), funcs=[func(type_refs=[8], code=[])], **U)
case('functions-one-by-one', at(TYPE + [8], 0), funcs=[func(type_refs=[8]), func(9)], **U)
case('functions-third-broken', at(STRING + [7], 2), funcs=[func(), func(), func(names=[7])], **U)
case('records-before-empty-code', at(TYPE + [9], 1), funcs=[func(code=[]), func(9)], **U)
case('records-before-falling-code', at(TYPE + [8], 1), funcs=[func(0, [DYN], code=[inst(34)]), func(type_refs=[8])], **U)
case('records-before-handlers', at(CALL_SHAPE, 1), funcs=[func(handlers=[(0, 0, 0, 0)]), func(shapes=[[(3, 0)]])], **U)
case('records-before-instructions', at(STRING + [7], 2), funcs=[func(code=[inst(2)]), func(), func(names=[7])], **U)
