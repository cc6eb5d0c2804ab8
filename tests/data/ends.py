"""Cases of rule 8: hooks, start, exports; and of the rules' order. By docs/FORMAT.md, apart from the definitions."""
from answers import (CAPTURES, CONSTANT, DEEP, EMPTY, EXPORTED, EXPORT_NAME, FALLS, FUNCTION, GLOBAL, HOLDS, HOOK, IMPORT, PARAM_LIST,
                     REGISTER, START, TYPE, at, collection)
from sheets import COROUTINE, DYN, I64, MOST, STR, cell, fn, func, import_, inst, param_list, ref, struct

CASES, case = collection()
MF = dict(strings=['m', 'f'])

# ── hooks ──
# by hook: how many parameters, and whether it has a result, all dyn
SHAPES = [(1, 1)] * 7 + [(3, 0)] * 2 + [(3, 1)] + [(2, 1)] * 21

# functions and imports of 0 to 4 parameters, without and with a result; after them one more function and two more imports for hook 30
def of(params, result):
    return 2 * params + result

SIGS = [fn([DYN] * params, [DYN] * result) for params in range(5) for result in range(2)]
CALLEES = dict(types=SIGS, imports=[import_(sig) for sig in [*range(10), of(2, 1), of(2, 1)]],
               funcs=[func(sig, [DYN] * (sig // 2)) for sig in [*range(10), of(2, 1)]], **MF)

def bound(name, expected, *bindings, **p):
    case(name, expected, hooks=bindings, **CALLEES, **p)

bound('hooks-all-to-functions', HOLDS, *[(hook, 0, of(*shape)) for hook, shape in enumerate(SHAPES)])
bound('hooks-all-to-imports', HOLDS, *[(hook, 1, of(*shape)) for hook, shape in enumerate(SHAPES)])
for hook, (params, result) in enumerate(SHAPES):
    other = params + (1 if hook % 2 else -1)
    bound(f'hook-{hook}-of-{other}', HOOK + [hook], (hook, 0, of(other, result)))
    bound(f'hook-{hook}-{"without" if result else "with"}-a-result', HOOK + [hook], (hook, 0, of(params, 1 - result)))
for hook, other in ((0, 2), (7, 2), (9, 2), (10, 3)):
    bound(f'hook-{hook}-of-{other}', HOOK + [hook], (hook, 0, of(other, SHAPES[hook][1])))
for name, callee in (('of-1', of(1, 1)), ('of-3', of(3, 1)), ('without-a-result', of(2, 0))):
    bound(f'hook-import-{name}', HOOK + [10], (10, 1, callee))
bound('hook-7-import-with-a-result', HOOK + [7], (7, 1, of(3, 1)))
bound('hook-function-last', HOLDS, (30, 0, 10))
bound('hook-function-absent', FUNCTION + [11], (30, 0, 11))
bound('hook-function-most', FUNCTION + [MOST], (0, 0, MOST))
bound('hook-import-last', HOLDS, (30, 1, 11))
bound('hook-import-absent', IMPORT + [12], (30, 1, 12))
bound('hook-import-most', IMPORT + [MOST], (0, 1, MOST))
bound('hooks-one-by-one', HOOK + [12], (12, 0, 0), (3, 0, 99))
bound('hooks-one-by-one-swapped', FUNCTION + [99], (3, 0, 99), (12, 0, 0))
bound('hooks-third-broken', HOOK + [5], (12, 0, of(2, 1)), (7, 1, of(3, 0)), (5, 0, 0))
bound('hook-twice', HOLDS, (10, 0, of(2, 1)), (10, 1, of(2, 1)))
bound('hook-twice-first-broken', HOOK + [10], (10, 0, 0), (10, 0, of(2, 1)))
bound('hook-twice-second-broken', HOOK + [10], (10, 0, of(2, 1)), (10, 0, 0))
bound('hook-twice-first-absent', IMPORT + [99], (10, 1, 99), (10, 0, of(2, 1)))
case('hook-import-where-functions-are', IMPORT + [0], types=[SIGS[3]], funcs=[func(0, [DYN])], hooks=[(0, 1, 0)])

# hook 10 bound to a function and to an import of that signature
def typed(name, expected, sig, *types):
    case('hook-' + name, expected, types=[sig, *types], funcs=[func(0, sig[2:2 + sig[1]])], hooks=[(10, 0, 0)])
    case('hook-import-' + name, expected, types=[sig, *types], imports=[import_()], hooks=[(10, 1, 0)], **MF)

typed('first-parameter-i64', HOOK + [10], fn([I64, DYN], [DYN]))
typed('second-parameter-str', HOOK + [10], fn([DYN, STR], [DYN]))
typed('parameter-cell-of-dyn', HOOK + [10], fn([DYN, ref(1)], [DYN]), cell(DYN))
typed('result-i64', HOOK + [10], fn([DYN, DYN], [I64]))
typed('result-cell-of-dyn', HOOK + [10], fn([DYN, DYN], [ref(1)]), cell(DYN))
case('hook-reads-parameters-only', HOLDS, types=[SIGS[5]], funcs=[func(0, [DYN, DYN, I64])], hooks=[(10, 0, 0)])
case('hook-with-captures', HOOK + [10], types=[SIGS[5]], funcs=[func(0, [DYN, DYN], captures=[DYN])], hooks=[(10, 0, 0)])
case('hook-spawn-is-the-scheduler', HOLDS, types=[SIGS[3]], strings=['desk', 'spawn'], imports=[import_()], hooks=[(5, 1, 0)])

# ── start: functions () -> (), of one parameter, of one result, with a capture, with all of them ──
STARTS = dict(types=[fn(), fn([DYN]), fn([], [DYN]), fn([DYN], [DYN])],
              funcs=[func(), func(1, [DYN]), func(2), func(captures=[DYN]), func(1, [DYN], captures=[DYN]), func(2, captures=[DYN]), func(0, [DYN])])
case('start', HOLDS, start=1, **STARTS)
case('start-last', HOLDS, start=7, **STARTS)
case('start-absent', FUNCTION + [7], start=8, **STARTS)
case('start-most', FUNCTION + [MOST - 1], start=MOST, **STARTS)
case('start-without-functions', FUNCTION + [0], start=1)
case('start-with-a-parameter', START, start=2, **STARTS)
case('start-with-a-result', START, start=3, **STARTS)
case('start-with-captures', CAPTURES, start=4, **STARTS)
case('start-parameter-before-captures', START, start=5, **STARTS)
case('start-result-before-captures', START, start=6, **STARTS)

# ── exports: two functions, three globals, four types, no string ──
ITEMS = dict(types=[fn()] * 3 + [COROUTINE], globals_=[[DYN, 0]] * 3, funcs=[func(), func()])
FUNC_ITEM, GLOBAL_ITEM, TYPE_ITEM = range(3)
case('exports', HOLDS, exports=[(FUNC_ITEM, 0, 0), (FUNC_ITEM, 0, 1), (GLOBAL_ITEM, 0, 2), (TYPE_ITEM, 0, 3)], **ITEMS)
case('export-names-are-not-read', HOLDS, exports=[(FUNC_ITEM, MOST, 0), (GLOBAL_ITEM, 7, 0), (TYPE_ITEM, 7, 0)], **ITEMS)
for name, kind, word, count in (('function', FUNC_ITEM, FUNCTION, 2), ('global', GLOBAL_ITEM, GLOBAL, 3), ('type', TYPE_ITEM, TYPE, 4)):
    case(f'export-{name}-absent', word + [count], exports=[(kind, 0, count)], **ITEMS)
    case(f'export-{name}-most', word + [MOST], exports=[(kind, 0, MOST)], **ITEMS)
case('exports-one-by-one', TYPE + [9], exports=[(FUNC_ITEM, 0, 0), (TYPE_ITEM, 0, 9), (FUNC_ITEM, 0, 8)], **ITEMS)
case('exports-third-broken', GLOBAL + [9], exports=[(FUNC_ITEM, 0, 0), (TYPE_ITEM, 0, 3), (GLOBAL_ITEM, 0, 9)], **ITEMS)

# ── names of exports: what the second edition says, and the same sheet in the first, which reads none ──
def named(name, expected, exports, strings=('a', 'a', 'b', '', 'c'), first=HOLDS, items=ITEMS, **p):
    p.update(items, strings=strings, exports=exports)
    case(f'export-{name}-of-edition-2', expected, edition=2, **p)
    case(f'export-{name}', first, **p)

def under(*names):
    return [(TYPE_ITEM, name, 0) for name in names]

named('name-absent', EXPORT_NAME + [9], under(9), strings=['a'], items=dict(types=[COROUTINE]))
named('name-of-the-last-string', HOLDS, under(4))
named('name-past-the-last-string', EXPORT_NAME + [5], under(5))
named('name-most', EXPORT_NAME + [MOST], under(MOST))
named('name-without-strings', EXPORT_NAME + [0], under(0), strings=[])
named('name-empty', HOLDS, under(3))
named('names-none', HOLDS, [], strings=[])
KINDS = list(enumerate(('function', 'global', 'type')))
for kind, name in KINDS:
    named(f'name-absent-of-a-{name}', EXPORT_NAME + [7], [(kind, 2, 0), (kind, 7, 1)])
    for other, beside in KINDS:
        named(f'name-of-a-{name}-and-a-{beside}', EXPORTED + [1], [(kind, 0, 0), (other, 0, 1)])
named('names-of-each-kind', HOLDS, [(FUNC_ITEM, 4, 0), (GLOBAL_ITEM, 0, 0), (TYPE_ITEM, 3, 0), (TYPE_ITEM, 2, 3)])
named('two-names-of-one-item', HOLDS, under(0, 2))
named('twice-under-one-name', EXPORTED + [1], under(0, 0))
named('name-of-equal-bytes', EXPORTED + [1], under(0, 1))
named('name-of-equal-bytes-swapped', EXPORTED + [1], under(1, 0))
named('name-empty-twice', EXPORTED + [1], under(0, 1), strings=['', ''])
named('name-three-times', EXPORTED + [1], under(0, 0, 0))
named('name-three-times-by-bytes', EXPORTED + [2], under(2, 0, 1, 0))
named('name-repeated-last', EXPORTED + [4], under(0, 2, 3, 4, 1))
named('names-repeated-inside', EXPORTED + [2], under(0, 2, 2, 0))
named('names-repeated-in-turn', EXPORTED + [2], under(0, 2, 0, 2))
# bytes that begin alike, that only padding makes equal, or that only look alike
for name, *texts in (('prefix', 'a', 'ab'), ('prefix-of-a-word', 'abcd', 'abcde'), ('zero-byte', 'a', 'a\0'), ('zero-byte-alone', '', '\0'),
                     ('accent', 'é', 'e\u0301'), ('last-byte', 'x' * 600 + 'y', 'x' * 600 + 'z')):
    named(f'names-apart-by-{name}', HOLDS, under(0, 1), strings=texts)
    named(f'names-apart-by-{name}-swapped', HOLDS, under(1, 0), strings=texts)
named('names-of-many-equal-bytes', EXPORTED + [1], under(0, 1), strings=['x' * 601] * 2)
MANY = [f'{k:x}' for k in range(250)]
named('names-many', HOLDS, under(*range(250)), strings=MANY)
named('names-many-the-first-repeated', EXPORTED + [250], under(*range(250), 0), strings=MANY)
named('names-many-the-first-by-bytes', EXPORTED + [250], under(*range(251)), strings=MANY + ['0'])
named('names-many-the-last-past-the-strings', EXPORT_NAME + [250], under(*range(251)), strings=MANY)
# index, range, repeat, then the next export
WRONG = (TYPE_ITEM, 0, 7)
named('index-before-range', TYPE + [7], [(TYPE_ITEM, 9, 7)], first=TYPE + [7])
named('index-before-repeat', TYPE + [7], [*under(0), WRONG], first=TYPE + [7])
named('range-before-a-later-index', EXPORT_NAME + [9], [*under(9), WRONG], first=TYPE + [7])
named('index-before-a-later-range', TYPE + [7], [WRONG, *under(9)], first=TYPE + [7])
named('repeat-before-a-later-index', EXPORTED + [1], [*under(0, 0), (TYPE_ITEM, 2, 7)], first=TYPE + [7])
named('index-before-a-later-repeat', TYPE + [7], [*under(0), (TYPE_ITEM, 2, 7), *under(0)], first=TYPE + [7])
named('repeat-before-a-later-range', EXPORTED + [1], under(0, 0, 9))
named('range-before-a-later-repeat', EXPORT_NAME + [9], under(0, 9, 0))
named('range-before-a-later-range', EXPORT_NAME + [9], under(0, 9, 8))
named('index-of-another-kind-before-range', FUNCTION + [2], [(FUNC_ITEM, 9, 2), *under(9)], first=FUNCTION + [2])

# ── one rule after the other ──
ALL = dict(start=9, exports=[(FUNC_ITEM, 0, 8)])
case('hooks-before-start', IMPORT + [7], hooks=[(0, 1, 7)], **ALL)
case('hooks-before-exports', HOOK + [0], types=[fn()], funcs=[func()], hooks=[(0, 0, 0)], exports=[(FUNC_ITEM, 0, 8)])
case('start-before-exports', FUNCTION + [8], **ALL)
named('name-behind-hooks', IMPORT + [7], under(9), first=IMPORT + [7], hooks=[(0, 1, 7)])
named('name-behind-start', FUNCTION + [8], under(9), first=FUNCTION + [8], start=9)
case('start-shape-before-exports', START, types=[fn([DYN])], funcs=[func(0, [DYN])], start=1, exports=[(TYPE_ITEM, 0, 8)])
case('code-before-hooks', at(REGISTER + [0], 1, 0), types=[fn()], funcs=[func(), func(code=[inst(2)])], hooks=[(0, 1, 7)], **ALL)
case('empty-code-before-start', at(EMPTY, 0), types=[fn()], funcs=[func(code=[])], **ALL)
case('falling-code-before-exports', at(FALLS, 0, 0), types=[fn()], funcs=[func(code=[inst(9)])], exports=[(FUNC_ITEM, 0, 8)])
case('records-before-hooks', at(TYPE + [6], 0), funcs=[func(6)], hooks=[(0, 1, 7)], **ALL)
case('globals-before-code-and-hooks', CONSTANT + [5], types=[fn()], globals_=[[DYN, 6]], funcs=[func(code=[])], hooks=[(0, 1, 7)], **ALL)
case('imports-before-all-later', PARAM_LIST, types=[fn()], imports=[import_(params=param_list((0, 0)))], globals_=[[DYN, 6]], funcs=[func(6)],
     hooks=[(0, 1, 7)], **MF, **ALL)
case('parents-before-all-later', DEEP, types=[struct(parent=0)], imports=[import_(6)], globals_=[[DYN, 6]], funcs=[func(6)], hooks=[(0, 1, 7)], **MF, **ALL)
