"""Cases of rules 2 to 4: types, parents, constants. By docs/FORMAT.md, apart from the definitions."""
from answers import BAD_CONSTANT, DEEP, FUNCTION, HOLDS, PARENT, SIGNATURE, STRING, TYPE, collection
from sheets import COROUTINE, DYN, I16, I8, MOST, PLAIN, array, cell, entries, fn, func, items, iter_, map_, ref, struct, text

CASES, case = collection()

# ── rule 2: types in order ──
case('func-of-dyn', HOLDS, types=[fn([DYN, I8], [DYN])])
case('func-two-results', SIGNATURE, types=[fn([], [I8, I8])])
case('func-two-results-before-param', SIGNATURE, types=[fn([ref(9)], [I8, I8])])
case('func-two-results-before-results', SIGNATURE, types=[fn([], [ref(9), ref(9)])])
case('func-param', TYPE + [7], types=[fn([ref(7)])])
case('func-second-param', TYPE + [7], types=[fn([I8, ref(7)])])
case('func-first-of-params', TYPE + [8], types=[fn([ref(8), ref(7)])])
case('func-result', TYPE + [7], types=[fn([I8], [ref(7)])])
case('func-param-before-result', TYPE + [8], types=[fn([ref(8)], [ref(7)])])
case('array-item', TYPE + [1], types=[array(ref(1))])
case('array-of-itself', HOLDS, types=[array(ref(0))])
case('array-of-the-last', HOLDS, types=[array(ref(1)), COROUTINE])
case('array-reference-most', TYPE + [MOST - 16], types=[array(MOST)])
case('map-key', TYPE + [5], types=[map_(ref(5), I8)])
case('map-value', TYPE + [6], types=[map_(I8, ref(6))])
case('map-key-before-value', TYPE + [6], types=[map_(ref(6), ref(5))])
case('cell-item', TYPE + [4], types=[cell(ref(4))])
case('iter-key', TYPE + [5], types=[iter_(ref(5), I8)])
case('iter-value', TYPE + [6], types=[iter_(I8, ref(6))])
case('iter-key-before-value', TYPE + [6], types=[iter_(ref(6), ref(5))])
case('types-in-order', TYPE + [9], types=[COROUTINE, array(ref(9)), array(ref(8))])
case('types-in-order-kinds', SIGNATURE, types=[fn([], [I8, I8]), array(ref(9))])
case('types-in-order-kinds-swapped', TYPE + [9], types=[array(ref(9)), fn([], [I8, I8])])

A = dict(strings=['a'])
CALLED = dict(strings=['a'], funcs=[func()])
SIG = fn()
case('struct', HOLDS, types=[SIG, struct([(0, I8), (0, ref(1))], methods=[(0, 0)])], **CALLED)
case('struct-field-type', TYPE + [9], types=[struct([(0, ref(9))])], **A)
case('struct-second-field-type', TYPE + [9], types=[struct([(0, I8), (0, ref(9))])], **A)
case('struct-field-name', STRING + [1], types=[struct([(1, I8)])], **A)
case('struct-field-name-most', STRING + [MOST], types=[struct([(0, I8), (MOST, I8)])], **A)
case('struct-field-type-before-names', TYPE + [9], types=[struct([(7, I8), (0, ref(9))])], **A)
case('struct-field-name-before-methods', STRING + [7], types=[SIG, struct([(7, I8)], methods=[(0, 5)])], **CALLED)
case('struct-method-function', FUNCTION + [1], types=[SIG, struct(methods=[(0, 1)])], **CALLED)
case('struct-method-name', STRING + [8], types=[SIG, struct(methods=[(8, 0)])], **CALLED)
case('struct-method-function-before-name', FUNCTION + [5], types=[SIG, struct(methods=[(8, 5)])], **CALLED)
case('struct-methods-one-by-one', STRING + [8], types=[SIG, struct(methods=[(8, 0), (0, 5)])], **CALLED)
case('struct-second-method', FUNCTION + [5], types=[SIG, struct(methods=[(0, 0), (0, 5)])], **CALLED)
case('struct-name', STRING + [9], types=[struct(name=9)], **A)
case('struct-methods-before-name', FUNCTION + [5], types=[SIG, struct(methods=[(0, 5)], name=9)], **CALLED)
case('struct-method-name-before-name', STRING + [8], types=[SIG, struct(methods=[(8, 0)], name=9)], **CALLED)
case('struct-field-name-before-name', STRING + [8], types=[struct([(8, I8)], name=9)], **A)
case('struct-function-is-no-type', FUNCTION + [1], types=[SIG, SIG, struct(methods=[(0, 1)])], **CALLED)

# ── rule 3: parents, per type ──
case('types-before-parents', TYPE + [9], types=[struct(parent=9), array(ref(9))], **A)
case('types-before-self-parent', TYPE + [9], types=[struct(parent=0), array(ref(9))], **A)
case('parent', HOLDS, types=[struct([(0, I8)]), struct([(0, I8), (0, I16)], 0)], **A)
case('parent-of-equal-fields', HOLDS, types=[struct([(0, I8)], 1), struct([(0, I8)])], **A)
case('parent-without-fields', HOLDS, types=[struct(), struct([(0, I8)], 0)], **A)
case('parent-methods-are-its-own', HOLDS, types=[SIG, struct(methods=[(0, 0)]), struct(parent=1)], **CALLED)
case('parent-absent', PARENT, types=[struct(parent=1)], **A)
case('parent-absent-most', PARENT, types=[struct(parent=MOST - 1)], **A)
for name, other in (('func', SIG), ('array', array(I8)), ('map', map_(I8, I8)), ('cell', cell(I8)), ('iter', iter_(I8, I8)), ('coroutine', COROUTINE)):
    case('parent-is-' + name, PARENT, types=[other, struct(parent=0)], **A)
AB = dict(strings=['a', 'b'])
case('prefix-name', PARENT, types=[struct([(0, I8)]), struct([(1, I8)], 0)], **AB)
case('prefix-type', PARENT, types=[struct([(0, I8)]), struct([(0, I16)], 0)], **AB)
case('prefix-second-name', PARENT, types=[struct([(0, I8), (0, I8)]), struct([(0, I8), (1, I8)], 0)], **AB)
case('prefix-second-type', PARENT, types=[struct([(0, I8), (0, I8)]), struct([(0, I8), (0, I16), (0, I8)], 0)], **AB)
case('prefix-longer-than-child', PARENT, types=[struct([(0, I8), (1, I8)]), struct([(0, I8)], 0)], **AB)
case('prefix-moved', PARENT, types=[struct([(0, I8)]), struct([(1, I8), (0, I8)], 0)], **AB)
case('prefix-equal-text-another-number', PARENT, types=[struct([(0, I8)]), struct([(1, I8)], 0)], strings=['a', 'a'])
case('prefix-equal-type-another-number', PARENT, types=[COROUTINE, COROUTINE, struct([(0, ref(0))]), struct([(0, ref(1))], 2)], **A)
case('self-parent', DEEP, types=[struct(parent=0)], **A)
case('self-parent-with-fields', DEEP, types=[struct([(0, I8)], 0)], **A)
case('cycle-of-two', DEEP, types=[struct(parent=1), struct(parent=0)], **A)
case('cycle-first-breaks-no-prefix', DEEP, types=[struct([(0, I8)], 1), struct(parent=0)], **A)
case('cycle-first-breaks-the-prefix', PARENT, types=[struct(parent=1), struct([(0, I8)], 0)], **A)
case('parents-in-order', PARENT, types=[struct(parent=9), struct(parent=1)], **A)
case('parents-in-order-swapped', DEEP, types=[struct(parent=0), struct(parent=9)], **A)

# n structs on a chain, each the child of the next but the last, whose parent is given; and in the other order
def lowest_first(n, top=None):
    return [struct(parent=t + 1) for t in range(n - 1)] + [struct(parent=top)]

def topmost_first(n, top=None):
    return [struct(parent=top)] + [struct(parent=t) for t in range(n - 1)]

# the most types on a chain, by edition; what a case of the second is called
for edition, most, of in ((1, 256, ''), (2, 64, '-of-edition-2')):
    E = dict(A, edition=edition)
    for name, chain in (('lowest-first' + of, lowest_first), ('topmost-first' + of, topmost_first)):
        case(f'chain-{most}-{name}', HOLDS, types=chain(most), **E)
        case(f'chain-{most + 1}-{name}', DEEP, types=chain(most + 1), **E)
        case(f'chain-{most - 1}-below-absent-{name}', PARENT, types=chain(most - 1, 300), **E)
        case(f'chain-{most - 1}-below-a-coroutine-{name}', PARENT, types=chain(most - 1, most - 1) + [COROUTINE], **E)
    case(f'chain-{most}-below-absent-lowest-first{of}', DEEP, types=lowest_first(most, 300), **E)
    case(f'chain-{most}-below-absent-topmost-first{of}', PARENT, types=topmost_first(most, 300), **E)
    case(f'chain-{most}-below-a-coroutine-lowest-first{of}', DEEP, types=lowest_first(most, most) + [COROUTINE], **E)
    case(f'chain-{most}-below-a-coroutine-topmost-first{of}', PARENT, types=topmost_first(most, most) + [COROUTINE], **E)
    case(f'cycle-of-{most}{of}', DEEP, types=lowest_first(most, 0), **E)
E2 = dict(A, edition=2)
case('self-parent-of-edition-2', DEEP, types=[struct(parent=0)], **E2)
case('cycle-first-breaks-the-prefix-of-edition-2', PARENT, types=[struct(parent=1), struct([(0, I8)], 0)], **E2)
case('parent-absent-of-edition-2', PARENT, types=[struct(parent=1)], **E2)
case('many-below-a-chain-of-63-of-edition-2', HOLDS, types=topmost_first(63) + [struct(parent=62)] * 140, **E2)
case('one-below-a-chain-of-64-of-edition-2', DEEP, types=topmost_first(64) + [struct(parent=63)], **E2)
# what is too long in the second edition, and the same in the first
for name, chain in (('lowest-first', lowest_first), ('topmost-first', topmost_first)):
    case('chain-65-' + name, HOLDS, types=chain(65), **A)
    case(f'chain-256-{name}-of-edition-2', DEEP, types=chain(256), **E2)
case('chain-64-below-absent-lowest-first', PARENT, types=lowest_first(64, 300), **A)
case('types-before-chain-65-of-edition-2', TYPE + [99], types=lowest_first(65) + [array(ref(99))], **E2)
case('cycle-of-300-lowest-first', DEEP, types=lowest_first(300, 0), **A)
case('cycle-of-300-topmost-first', DEEP, types=topmost_first(300, 299), **A)
case('below-a-cycle-of-300', DEEP, types=lowest_first(301, 1), **A)
case('many-below-a-chain-of-255', HOLDS, types=topmost_first(255) + [struct(parent=254)] * 140, **A)
case('one-below-a-chain-of-256', DEEP, types=topmost_first(256) + [struct(parent=255)], **A)
case('two-chains-of-180', HOLDS, types=[struct(parent=t - 1 if t % 180 else None) for t in range(360)], **A)

# ── rule 4: constants in order ──
case('parents-before-constants', DEEP, types=[struct(parent=0)], consts=[text(9)], **A)
case('types-before-constants', TYPE + [9], types=[array(ref(9))], consts=[text(9)], **A)
case('constants', HOLDS, consts=[PLAIN, [0, MOST, MOST], text(0), items(0, 1, 2, 2), entries((3, 0), (3, 3))], **A)
case('string', STRING + [1], consts=[PLAIN, text(1)], **A)
case('string-most', STRING + [MOST], consts=[text(MOST)], **A)
case('string-without-strings', STRING + [0], consts=[text(0)])
case('child-itself', BAD_CONSTANT, consts=[items(0)])
case('child-above', BAD_CONSTANT, consts=[items(1), PLAIN])
case('child-absent', BAD_CONSTANT, consts=[PLAIN, items(0, 9)])
case('child-most', BAD_CONSTANT, consts=[PLAIN, items(MOST)])
case('child-second', BAD_CONSTANT, consts=[PLAIN, items(0, 1)])
case('child-below', HOLDS, consts=[PLAIN, items(0, 0), items(1, 0)])
case('map-key-itself', BAD_CONSTANT, consts=[PLAIN, entries((1, 0))])
case('map-value-itself', BAD_CONSTANT, consts=[PLAIN, entries((0, 1))])
case('map-second-key-above', BAD_CONSTANT, consts=[PLAIN, entries((0, 0), (2, 0)), PLAIN])
case('map-second-value-above', BAD_CONSTANT, consts=[PLAIN, entries((0, 0), (0, 2)), PLAIN])
case('constants-in-order', STRING + [9], consts=[text(9), items(1)], **A)
case('constants-in-order-swapped', BAD_CONSTANT, consts=[items(0), text(9)], **A)

# constant 0 has depth 0, and each after it one more, up to n
def nested(n, kind, first=PLAIN):
    return [first] + [kind(c) for c in range(n)]

for name, kind in (('arrays', items), ('keys', lambda c: entries((c, 0))), ('values', lambda c: entries((0, c))), ('later-children', lambda c: items(0, c, 0))):
    case(f'depth-64-{name}', HOLDS, consts=nested(64, kind))
    case(f'depth-65-{name}', BAD_CONSTANT, consts=nested(65, kind))
for name, first in (('empty-array', items()), ('empty-map', entries()), ('string', text(0))):
    case(f'depth-64-over-{name}', HOLDS, consts=nested(64, items, first), **A)
    case(f'depth-65-over-{name}', BAD_CONSTANT, consts=nested(65, items, first), **A)
case('depth-64-of-edition-2', HOLDS, consts=nested(64, items), edition=2)
case('depth-65-of-edition-2', BAD_CONSTANT, consts=nested(65, items), edition=2)
case('chain-65-before-constants-of-edition-2', DEEP, types=lowest_first(65), consts=[text(9)], **E2)
case('depth-65-before-a-string', BAD_CONSTANT, consts=nested(65, items) + [text(9)])
case('depth-64-and-wide', HOLDS, consts=nested(64, items) + [items(*range(64))] * 9)
case('depth-65-by-the-widest', BAD_CONSTANT, consts=nested(64, items) + [items(*range(64)), items(*range(65))])
