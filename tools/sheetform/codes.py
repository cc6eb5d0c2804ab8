"""The codes of docs/FORMAT.md and what the text form calls them."""
from collections import namedtuple

VALUE_TYPES = ['bool', 'i8', 'i16', 'i32', 'i64', 'u8', 'u16', 'u32', 'u64', 'f32', 'f64', 'str', 'dyn']
REF = 16
HOOKS = ['neg', 'bit-not', 'truthy', 'iter', 'len', 'spawn', 'abs', 'set-index', 'set-prop', 'call-shape']
HOOK_COUNT = 31
CALLEES = ['function', 'import']
EXPORTS = ['function', 'global', 'type']
SHAPES = ['positional', 'named', 'spread']
FLAGS = ['by-ref', 'optional']
HOST_KINDS = ['user', 'scheduler']

# fields are slot and kind in the order of docs/FORMAT.md, "The 35 codes"; modifier is the word for D where an instruction reads it
Op = namedtuple('Op', 'name fields modifier')
KINDS = dict(r='register', t='target', b='table', f='function', c='constant', g='global', i='import', n='name', k='capture', s='shape', y='type ref')
WIDTHS = dict(a=65535, b=65535, c=65535, d=255, w=4294967295)

def op(name, fields='', modifier=None):
    return Op(name, [(field[0], KINDS[field[1]]) for field in fields.split()], modifier)

OPS = [
    op('unreachable'), op('ret-void'), op('ret', 'ar'), op('throw', 'ar'), op('jmp', 'wt'), op('branch', 'ar wt'), op('switch', 'ar wb'),
    op('tail-call', 'ar wf', 'argc'), op('tail-call-indirect', 'ar br', 'argc'), op('i-add', 'ar br cr', 'mode'), op('d-add', 'ar br cr', 'mode'),
    op('load-constant', 'ar wc'), op('load-global', 'ar wg'), op('load-name', 'ar br cn'), op('load-capture', 'ar bk'),
    op('call', 'ar wf', 'argc'), op('call-indirect', 'ar br', 'argc'), op('d-call', 'ar br', 'argc'), op('coro-new-indirect', 'ar br', 'argc'),
    op('spawn', 'ar br', 'argc'), op('coro-new', 'ar wf', 'argc'), op('call-import', 'ar wi', 'argc'), op('make-closure', 'ar wf'),
    op('d-call-shape', 'ar bs'), op('new-struct', 'ar by'), op('new-array', 'ar by'), op('new-map', 'ar by'), op('new-cell', 'ar by'),
    op('str-concat-n', 'ar br', 'count'), op('str-slice', 'ar br cr'), op('from-dyn', 'ar br', 'type'), op('raise', 'ar', 'kind'),
    op('float-to-bits', 'ar br', 'type'), op('bits-to-float', 'ar br', 'type'), op('move', 'ar br'),
]
CODES = {o.name: code for code, o in enumerate(OPS)}
# words for values of D, by its modifier
MODIFIERS = dict(mode={3: 'promote'}, type=dict(enumerate([*VALUE_TYPES, 'ref'])))

# the slots that an instruction does not read, D left out; W stands where neither B nor C is read
def unread(code):
    slots = {slot for slot, _ in OPS[code].fields}
    spare = [] if 'a' in slots else ['a']
    if 'w' in slots:
        return spare
    if not slots & {'b', 'c'}:
        return spare + ['w']
    return spare + [slot for slot in 'bc' if slot not in slots]

# the slots of an instruction's two words
def slots(low, high):
    return dict(a=low >> 16, d=low >> 8 & 255, b=high & 65535, c=high >> 16, w=high)

def instruction(code, values):
    high = values['w'] if 'w' in values else values.get('b', 0) | values.get('c', 0) << 16
    return code | values.get('d', 0) << 8 | values.get('a', 0) << 16, high
