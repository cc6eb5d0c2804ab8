"""Sheets and host lists for the programs' data, by docs/FORMAT.md, apart from the definitions, and the files that a program is run on."""
import os, shutil

CRATES = os.path.dirname(os.path.dirname(os.path.dirname(os.path.abspath(__file__)))) + '/crates'

I8, I16, I32, I64, F64, STR, DYN = 1, 2, 3, 4, 10, 11, 12
MOST = 4294967295

def blocks(words, count=None):
    count = count or max(1, -(-len(words) // 127))
    words = words + [0] * (127 * count - len(words))
    out = []
    for k in range(count):
        body = b''.join(w.to_bytes(4, 'little') for w in words[127 * k:127 * k + 127])
        out += [body, ((k + sum(i * b for i, b in enumerate(body, 1))) % 65521).to_bytes(4, 'little')]
    return b''.join(out)

def sheet(body, count=None, edition=1, n=None):
    return blocks([edition, len(body) + 2 if n is None else n] + body, count)

def string(text):
    text = text if isinstance(text, bytes) else text.encode()
    padded = text + b'\0' * (-len(text) % 4)
    return [len(text)] + [int.from_bytes(padded[i:i + 4], 'little') for i in range(0, len(padded), 4)]

def listed(*members):
    return [len(members)] + sum(map(list, members), [])

def numbered(numbers):
    return [len(numbers), *numbers]

# strings, types, constants, imports, globals, functions, hooks, start + 1, exports
def parts(strings=(), types=(), consts=(), imports=(), globals_=(), funcs=(), hooks=(), start=0, exports=()):
    return (listed(*[string(s) for s in strings]) + listed(*types) + listed(*consts) + listed(*imports)
            + listed(*globals_) + listed(*funcs) + listed(*hooks) + [start] + listed(*exports))

# ── types ──

def ref(t):
    return 16 + t

def fn(params=(), results=()):
    return [0] + numbered(params) + numbered(results)

def struct(fields=(), parent=None, methods=(), name=0):
    return [1, name, 0 if parent is None else parent + 1] + listed(*fields) + listed(*methods)

def array(v):
    return [2, v]

def map_(k, v):
    return [3, k, v]

def cell(v):
    return [4, v]

def iter_(k, v):
    return [5, k, v]

COROUTINE = [6]

# ── constants ──

PLAIN = [0, 0, 0]

def text(s):
    return [1, s]

def items(*children):
    return [2] + numbered(children)

def entries(*pairs):
    return [3] + listed(*pairs)

# ── imports, functions, host functions ──

NO_LIST = (0,)

# members are flags and name + 1
def param_list(*members):
    return [1] + listed(*members)

def import_(sig=0, module=0, name=1, params=NO_LIST):
    return [module, name, sig, *params]

# handlers are start, end, target, catch; tables are targets and a default
def func(sig=0, regs=(), params=NO_LIST, shapes=(), code=((1, 0),), captures=(), names=(), type_refs=(), handlers=(), tables=()):
    return ([sig] + numbered(regs) + list(params) + listed(*[listed(*s) for s in shapes]) + numbered(captures) + numbered(names) + numbered(type_refs)
            + listed(*handlers) + listed(*[numbered(targets) + [default] for targets, default in tables]) + listed(*code))

# an instruction's two words; W stands where B and C do
def inst(code, a=0, b=0, c=0, d=0, w=None):
    return [code | d << 8 | a << 16, b | c << 16 if w is None else w]

# members are module, name, and whether it is the scheduler
def host_list(members, edition=1):
    return sheet(listed(*[string(module) + string(name) + [int(scheduler)] for module, name, scheduler in members]), edition=edition)

# what the program of that crate is run on and must print, a case a file: its name, its bytes, and what is expected of it
def write(crate, cases, missing, hosts=None):
    here = f'{CRATES}/{crate}'
    names = [name for name, _, _ in cases]
    assert len(set(names)) == len(names) and 'hosts' not in names, [n for n in names if names.count(n) > 1]
    shutil.rmtree(here + '/data', ignore_errors=True)
    os.makedirs(here + '/data')
    for name, data, _ in cases:
        open(f'{here}/data/{name}', 'wb').write(data)
    if hosts is not None:
        open(here + '/data/hosts', 'wb').write(hosts)
    lines = [(name, expected) for name, _, expected in cases] + [('missing-file', missing)]
    open(here + '/args', 'w').write(''.join(name + '\n' for name, _ in lines))
    open(here + '/stdout', 'w').write(''.join(f'{name} {expected}\n' for name, expected in lines))
