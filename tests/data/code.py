"""Cases of rule 7: the ends of code, handlers, tables, and what covers a tail call. By docs/FORMAT.md, apart from the definitions."""
from answers import ARITY, CAPTURES, CATCH, EMPTY, FALLS, HANDLER, HOLDS, PROMOTE, REGISTER, TABLE, TABLE_TARGET, TAIL_CALL, at, collection
from sheets import DYN, I64, MOST, STR, cell, fn, func, inst, ref

CASES, case = collection()

RET_VOID, RET, MOVE, CALL = inst(1), inst(2), inst(34), inst(15, w=1)
U = dict(types=[fn(), fn([DYN]), cell(DYN)])

# ── ends of code ──
case('code-empty', at(EMPTY, 0), funcs=[func(code=[])], **U)
case('code-empty-second', at(EMPTY, 1), funcs=[func(), func(code=[])], **U)
case('code-empty-before-handlers', at(EMPTY, 0), funcs=[func(code=[], handlers=[(0, 0, 0, 0)], tables=[([], 0)])], **U)
case('code-falls-before-handlers', at(FALLS, 0, 1), funcs=[func(0, [DYN], code=[RET_VOID, MOVE], handlers=[(0, 0, 0, 0)])], **U)
case('code-falls-before-tables', at(FALLS, 0, 1), funcs=[func(0, [DYN], code=[RET_VOID, MOVE], tables=[([], 9)])], **U)
case('code-falls-before-instructions', at(FALLS, 0, 2), funcs=[func(0, [DYN], code=[inst(2, 9), RET_VOID, MOVE])], **U)
case('code-falls-by-the-last-only', HOLDS, funcs=[func(0, [DYN], code=[MOVE, MOVE, RET_VOID])], **U)
case('code-judged-though-not-reached', at(REGISTER + [9], 0, 1), funcs=[func(0, [DYN], code=[RET_VOID, inst(2, 9)])], **U)
case('code-first-instruction-first', at(REGISTER + [8], 0, 0), funcs=[func(0, [DYN], code=[inst(2, 8), inst(2, 9)])], **U)
case('code-rule-before-next-fields', at(PROMOTE, 0, 0), funcs=[func(0, [DYN], code=[inst(9, d=3), inst(2, 9)])], **U)
case('code-functions-one-by-one', at(REGISTER + [9], 0, 2), funcs=[func(code=[RET_VOID, RET_VOID, inst(2, 9)]), func(code=[])], **U)
case('code-third-function', at(REGISTER + [0], 2, 1), funcs=[func(), func(), func(code=[RET_VOID, RET])], **U)

# ── handlers: over three instructions, registers dyn, i64, str, a cell of dyn, dyn ──
REGS = [DYN, I64, STR, ref(2), DYN]

def handled(name, expected, *handlers, **f):
    case(name, expected, funcs=[func(0, REGS, code=[RET_VOID] * 3, handlers=handlers, **f)], **U)

INVALID, NOT_DYN = at(HANDLER, 0), at(CATCH, 0)
handled('handler', HOLDS, (0, 3, 2, 4))
handled('handler-of-one-position', HOLDS, (2, 3, 0, 0))
handled('handler-empty', INVALID, (1, 1, 0, 0))
handled('handler-empty-at-the-end', INVALID, (3, 3, 0, 0))
handled('handler-inverted', INVALID, (2, 1, 0, 0))
handled('handler-start-most', INVALID, (MOST, 3, 0, 0))
handled('handler-end-past-the-code', INVALID, (0, 4, 0, 0))
handled('handler-end-most', INVALID, (0, MOST, 0, 0))
handled('handler-beyond-the-code', INVALID, (3, 4, 0, 0))
handled('handler-target-past-the-code', INVALID, (0, 3, 3, 0))
handled('handler-target-most', INVALID, (0, 3, MOST, 0))
handled('handler-catch-past-the-frame', INVALID, (0, 3, 0, 5))
handled('handler-catch-65536', INVALID, (0, 3, 0, 65536))
handled('handler-catch-most', INVALID, (0, 3, 0, MOST))
handled('handler-catch-i64', NOT_DYN, (0, 3, 0, 1))
handled('handler-catch-str', NOT_DYN, (0, 3, 0, 2))
handled('handler-catch-a-cell-of-dyn', NOT_DYN, (0, 3, 0, 3))
handled('handler-empty-and-not-dyn', INVALID, (1, 1, 0, 1))
handled('handler-target-and-not-dyn', INVALID, (0, 3, 3, 1))
handled('handlers-not-dyn-then-empty', NOT_DYN, (0, 3, 0, 1), (1, 1, 0, 0))
handled('handlers-empty-then-not-dyn', INVALID, (1, 1, 0, 0), (0, 3, 0, 1))
handled('handlers-second-broken', NOT_DYN, (0, 3, 0, 0), (0, 3, 0, 1))
handled('handlers-nine', HOLDS, *[(k % 3, 3, 0, 0) for k in range(9)])
handled('handlers-ninth-broken', INVALID, *[(0, 3, 0, 0)] * 8, (0, 4, 0, 0))
handled('handlers-before-tables', INVALID, (1, 1, 0, 0), tables=[([], 9)])
handled('handlers-catch-before-tables', NOT_DYN, (0, 3, 0, 1), tables=[([], 9)])
case('handler-without-registers', INVALID, funcs=[func(handlers=[(0, 1, 0, 0)])], **U)
case('handlers-before-instructions', at(CATCH, 1), funcs=[func(), func(0, [I64], code=[inst(2, 9)], handlers=[(0, 1, 0, 0)])], **U)
case('handlers-seven-positions', HOLDS,
     funcs=[func(0, [DYN], code=[RET_VOID] * 7, handlers=[(2, 6, 0, 0), (0, 4, 0, 0)] + [(0, 1, 0, 0)] * 7)], **U)

# ── tables: over three instructions ──
def tabled(name, expected, *tables):
    case(name, expected, funcs=[func(code=[RET_VOID] * 3, tables=tables)], **U)

tabled('table', HOLDS, ([0, 1, 2], 2), ([], 0))
tabled('table-target', at(TABLE_TARGET + [3], 0), ([0, 3], 0))
tabled('table-target-most', at(TABLE_TARGET + [MOST], 0), ([MOST], 0))
tabled('table-default', at(TABLE_TARGET + [3], 0), ([0], 3))
tabled('table-default-alone', at(TABLE_TARGET + [65536], 0), ([], 65536))
tabled('table-first-of-targets', at(TABLE_TARGET + [8], 0), ([8, 7], 6))
tabled('table-targets-before-default', at(TABLE_TARGET + [7], 0), ([0, 7], 6))
tabled('tables-one-by-one', at(TABLE_TARGET + [6], 0), ([0], 6), ([7], 0))
tabled('tables-second-broken', at(TABLE_TARGET + [7], 0), ([0], 1), ([2, 7], 0))
case('tables-before-instructions', at(TABLE_TARGET + [9], 1), funcs=[func(), func(code=[inst(2, 9)], tables=[([], 9)])], **U)
case('tables-are-the-own-function', at(TABLE + [0], 1, 0), funcs=[func(tables=[([], 0)]), func(0, [DYN], code=[inst(6)])], **U)

# ── a tail call under a handler: at a position of six, function 1 without parameters, 2 with one, 3 with a capture ──
def tail(name, expected, position, *handlers, op=inst(7, w=1), more=()):
    code = [RET_VOID] * 6
    code[position] = op
    for other in more:
        code[other] = op
    case(name, expected, funcs=[func(0, [DYN], code=code, handlers=[(start, end, 0, 0) for start, end in handlers]), func(), func(1, [DYN]),
                                func(captures=[DYN])], **U)

COVERED = at(TAIL_CALL, 0, 2)
tail('tail-call-alone', HOLDS, 2)
tail('tail-call-under-a-handler', COVERED, 2, (0, 6))
tail('tail-call-just-covered', COVERED, 2, (2, 3))
tail('tail-call-at-start', COVERED, 2, (2, 6))
tail('tail-call-before-start', HOLDS, 2, (3, 6))
tail('tail-call-before-end', COVERED, 2, (0, 3))
tail('tail-call-at-end', HOLDS, 2, (0, 2))
tail('tail-call-at-the-last-position', at(TAIL_CALL, 0, 5), 5, (5, 6))
tail('tail-call-at-the-first-position', at(TAIL_CALL, 0, 0), 0, (0, 1))
tail('tail-call-under-the-second', COVERED, 2, (0, 1), (2, 3))
tail('tail-call-under-the-first', COVERED, 2, (2, 3), (0, 1))
tail('tail-call-under-both', COVERED, 2, (0, 4), (1, 5))
tail('tail-call-under-one-twice', COVERED, 2, (1, 3), (1, 3))
tail('tail-call-under-the-ninth', COVERED, 2, *[(0, 1), (3, 6)] * 4, (1, 3))
tail('tail-call-as-the-first-ends', COVERED, 2, (0, 2), (1, 4))
tail('tail-call-as-the-second-ends', COVERED, 2, (1, 4), (0, 2))
tail('tail-call-as-the-inner-ends', COVERED, 2, (0, 4), (1, 2))
tail('tail-call-as-two-inner-end', COVERED, 2, (0, 6), (1, 2), (1, 2))
tail('tail-call-longer-of-one-start', COVERED, 2, (0, 4), (0, 2))
tail('tail-call-shorter-first-of-one-start', COVERED, 2, (0, 2), (0, 4))
tail('tail-call-as-all-end', HOLDS, 2, (0, 2), (1, 2), (0, 2))
tail('tail-call-as-one-ends-and-one-starts', COVERED, 2, (0, 2), (2, 4))
tail('tail-call-between-two', HOLDS, 2, (0, 2), (3, 6))
tail('tail-call-second-covered', at(TAIL_CALL, 0, 4), 2, (3, 6), more=[4])
tail('tail-call-indirect-under-a-handler', COVERED, 2, (0, 3), op=inst(8))
tail('tail-call-indirect-at-end', HOLDS, 2, (0, 2), op=inst(8))
tail('call-under-a-handler', HOLDS, 2, (0, 6), op=CALL)
tail('tail-call-window-before-handler', at(REGISTER + [1], 0, 2), 2, (0, 6), op=inst(7, d=2, w=1))
tail('tail-call-arity-before-handler', at(ARITY + [0, 1], 0, 2), 2, (0, 6), op=inst(7, d=1, w=1))
tail('tail-call-captures-before-handler', at(CAPTURES, 0, 2), 2, (0, 6), op=inst(7, w=3))
tail('tail-call-indirect-window-before-handler', at(REGISTER + [1], 0, 2), 2, (0, 6), op=inst(8, d=2))
case('tail-call-is-the-target', HOLDS, funcs=[func(0, [DYN], code=[RET_VOID, inst(7, w=1)], handlers=[(0, 1, 1, 0)]), func()], **U)
case('tail-call-under-the-handler-of-another', HOLDS, funcs=[func(0, [DYN], handlers=[(0, 1, 0, 0)]), func(0, [DYN], code=[inst(7)])], **U)
