"""Cases of rule 7: the arguments of imports, in both editions. By docs/FORMAT.md, apart from the definitions."""
from answers import ARITY, FUNCTION, HOLDS, HOOK, PARAM_LIST, REGISTER, at, collection
from sheets import DYN, fn, func, import_, inst, param_list

CASES, case = collection()
TAIL_CALL, CALL, CORO_NEW, CALL_IMPORT, RET, RET_VOID = 7, 15, 20, 21, 2, inst(1)

# a list without names
def flagged(flags):
    return param_list(*[(flag, 0) for flag in flags])

# an import of as many dyn as it has flags; type n is a func of n dyn
def takes(*flags):
    return import_(len(flags), params=flagged(flags))

def call(d, a=0, w=0):
    return inst(CALL_IMPORT, a, d=d, w=w)

def func_types(most):
    return [fn([DYN] * n) for n in range(most + 1)]

# a sheet in both editions: what the second says of it, and the first
def both(name, second, first, **p):
    case(f'arguments-{name}-of-edition-2', second, edition=2, strings=['m', 'f'], **p)
    case(f'arguments-{name}', first, strings=['m', 'f'], **p)

# function 0 has that code, and so many registers
def called(name, second, first, imports, *code, regs=6, others=(), **p):
    both(name, second, first, types=func_types(4), imports=imports, funcs=[func(0, [DYN] * regs, code=[*code, RET_VOID]), *others], **p)

def wrong(expected, found, position=0):
    return at(ARITY + [expected, found], 0, position)

# ── one mandatory of two; the same by reference ──
for name, flags in (('', (0, 2)), ('-by-reference', (1, 3))):
    called('none' + name, wrong(1, 0), wrong(2, 0), [takes(*flags)], call(0))
    called('mandatory-alone' + name, HOLDS, wrong(2, 1), [takes(*flags)], call(1))
    called('all' + name, HOLDS, HOLDS, [takes(*flags)], call(2))
    called('one-more' + name, wrong(2, 3), wrong(2, 3), [takes(*flags)], call(3))
called('two-mandatory-one-given', wrong(2, 1), wrong(4, 1), [takes(0, 1, 2, 3)], call(1))
called('some-optional', HOLDS, wrong(4, 3), [takes(0, 1, 2, 3)], call(3))

# ── all optional, none optional, no list, a list without members ──
called('all-optional-none', HOLDS, wrong(2, 0), [takes(2, 3)], call(0))
called('all-optional-one-more', wrong(2, 3), wrong(2, 3), [takes(2, 3)], call(3))
called('none-optional-one-short', wrong(2, 1), wrong(2, 1), [takes(0, 1)], call(1))
called('without-a-list-one-short', wrong(2, 1), wrong(2, 1), [import_(2)], call(1))
called('without-a-list-one-more', wrong(2, 3), wrong(2, 3), [import_(2)], call(3))
called('list-without-members', HOLDS, HOLDS, [takes()], call(0))
called('list-without-members-one-more', wrong(0, 1), wrong(0, 1), [takes()], call(1))
# the list is judged before any call
called('list-broken', PARAM_LIST, PARAM_LIST, [takes(2, 0)], call(1))

# ── the window is that of the arguments, and comes first ──
def past(last):
    return at(REGISTER + [last], 0, 0)

called('window-of-the-mandatory', HOLDS, wrong(2, 1), [takes(0, 2)], call(1), regs=2)
called('window-one-late', past(2), past(2), [takes(0, 2)], call(1, a=1), regs=2)
called('window-before-too-many', past(3), past(3), [takes(0, 2)], call(3), regs=2)
called('window-of-none', HOLDS, wrong(2, 0), [takes(2, 2)], call(0), regs=1)

# ── about 256 parameters, the first of them mandatory: cut to 8 bits 256 would be none ──
def many(name, second, first, mandatory, optional, d):
    flags = [0] * mandatory + [2] * optional
    both(name, second, first, types=[fn(), fn([DYN] * len(flags))], imports=[import_(1, params=flagged(flags))],
         funcs=[func(0, [DYN] * 256, code=[call(d), RET_VOID])])

for d in (0, 255):
    many(f'{d}-of-256-optional', HOLDS, wrong(256, d), 0, 256, d)
    many(f'{d}-of-257-optional', HOLDS, wrong(257, d), 0, 257, d)
    many(f'{d}-of-256-and-one-optional', wrong(256, d), wrong(257, d), 256, 1, d)
many('255-of-255-and-one-optional', HOLDS, wrong(256, 255), 255, 1, 255)
many('254-of-255-and-one-optional', wrong(255, 254), wrong(256, 254), 255, 1, 254)

# ── several imports and functions: each call goes by its own import ──
LISTS = [takes(0, 2), import_(2), takes(2, 2), takes(0, 0)]
called('of-each-import', HOLDS, wrong(2, 1), LISTS, call(1, w=0), call(2, w=1), call(0, w=2), call(2, w=3), call(1, w=0))
for w, fewest in ((0, 1), (1, 2), (3, 2)):
    called(f'of-import-{w}-behind-another', wrong(fewest, fewest - 1, 1), wrong(2, 0), LISTS, call(0, w=2), call(fewest - 1, w=w))
SECOND = func(0, [DYN] * 3, code=[call(2), call(0), RET_VOID])
called('in-the-second-function', at(ARITY + [1, 0], 1, 1), wrong(2, 1), LISTS, call(1), others=[SECOND])

# ── one fault after the other ──
ABSENT = inst(RET, 9)
called('left-out-before-a-register', at(REGISTER + [9], 0, 1), wrong(2, 1), [takes(0, 2)], call(1), ABSENT)
called('too-few-before-a-register', wrong(1, 0), wrong(2, 0), [takes(0, 2)], call(0), ABSENT)
called('too-few-behind-a-register', at(REGISTER + [9], 0, 0), at(REGISTER + [9], 0, 0), [takes(0, 2)], ABSENT, call(0))
called('left-out-before-start', FUNCTION + [8], wrong(2, 1), [takes(0, 2)], call(1), start=9)

# ── a function's own list, and hooks, change nothing ──
for name, code in (('tail-call', TAIL_CALL), ('call', CALL), ('coro-new', CORO_NEW)):
    callee = func(2, [DYN] * 2, param_list((0, 0), (2, 0)))
    called(name + '-of-a-function', wrong(2, 1), wrong(2, 1), [takes(0, 2)], inst(code, d=1, w=1), others=[callee])
for name, expected, *flags in (('two-all-optional', HOLDS, 2, 2), ('two-one-optional', HOLDS, 0, 2),
                               ('three-one-optional', HOOK + [10], 0, 0, 2)):
    both('hook-of-' + name, expected, expected, types=[fn([DYN] * len(flags), [DYN])], hooks=[(10, 1, 0)],
         imports=[import_(params=flagged(flags))])
