"""What the files of crates/ import, by their text."""
import glob, os, re

ROOT = os.path.dirname(os.path.dirname(os.path.abspath(__file__)))
# antt's names may have dashes and primes inside
WORD = r"[\w'₀-₉-]"
CRATES = sorted(os.listdir(ROOT + '/crates'))

def read(path):
    with open(f'{ROOT}/{path}', encoding='utf-8') as f:
        return f.read()

# paths below crates/ without their ending: the root's modules first, in the order that Lib names them
def files(crate, part):
    ending = '.rt' if part == 'src' else '.antt'
    there = glob.glob(f'{ROOT}/crates/{crate}/{part}/**/*{ending}', recursive=True)
    found = sorted(os.path.relpath(p, ROOT + '/crates')[:-len(ending)] for p in there)
    root = f'{crate}/{part}/Lib'
    order = re.findall(r'^pub mod (\w+)', read(f'crates/{root}.antt'), re.M) if part == 'specs' and root in found else []
    return sorted(found, key=lambda p: (order.index(os.path.basename(p)) if os.path.basename(p) in order else -1, p))

# the text without comments, line for line
def code(path):
    return re.sub(r'^\s*(--|//).*$', '', read(f'crates/{path}'), flags=re.M)

def sources(crate):
    for part, ending in (('src', '.rt'), ('specs', '.antt'), ('proofs', '.antt')):
        for path in files(crate, part):
            yield path, code(path + ending)

# crates that a crate names: in Rattle by the first word of a path, in antt by the library
def edges(crate):
    found, own = set(), set(re.findall(r'^\s*(?:pub )?mod (\w+);', '\n'.join(t for p, t in sources(crate)), re.M))
    for _, text in sources(crate):
        found |= set(re.findall(r'Rattle\.(\w+)\.', text))
        found |= {w for w in re.findall(r'(?<![\w:])(\w+)::', text) if w not in own}
    return found & {*CRATES} - {crate}

# ── what must be believed ──

# whatever way a file of crates/ is named: imported with names or whole, under another name, or by a whole path
NAMED = re.compile(rf"Rattle\.({'|'.join(CRATES)})\.(\w+)\.([\w.'-]+)")

# the file that 'crate', 'specs', 'A.B.name' lies in: the longest path that is one; None where there is none
def lies_in(crate, part, name):
    parts = name.rstrip('.').split('.')
    for n in range(len(parts), 0, -1):
        path = f'{crate}/{part}/' + '/'.join(parts[:n])
        if os.path.exists(f'{ROOT}/crates/{path}.antt'):
            return path
    return None

# where a file names what: each file, with the number of the line; types that code declares are not among them
def named(path, text):
    for number, line in enumerate(text.split('\n'), 1):
        for crate, part, name in NAMED.findall(line):
            if not name.startswith('declared.'):
                yield number, lies_in(crate, part, name) or f'{crate}/{part}/{name}, which is no file'

# the files, each with the place that brings it in first
def closure(start):
    found, todo = {}, [(path, 'a statement') for path in start]
    while todo:
        path, by = todo.pop(0)
        if path not in found:
            found[path] = by
            if os.path.exists(f'{ROOT}/crates/{path}.antt'):
                todo += [(used, f'{path}:{number}') for number, used in named(path, code(path + '.antt'))]
    return found

# files of code that declare a type which these files name
def declared(paths):
    out = set()
    for path in paths:
        for crate, name in re.findall(r'Rattle\.(\w+)\.specs\.declared\.(\w+)', code(path + '.antt')):
            out |= {p + '.rt' for p in files(crate, 'src') if re.search(rf'^pub (struct|enum) {name}\b', read(f'crates/{p}.rt'), re.M)}
    return out

# ── contracts ──

# what stands between a function's name and its body
def contract(path, function):
    return re.search(rf'^pub (?:extern "C" )?fn {function}\(.*?^\{{', code(path + '.rt'), re.M | re.S).group(0)

# where the words of a contract come from, by the file's `ghost use`s and by whole paths
def cited(path, function):
    text = contract(path, function)
    yield from (used for _, used in named(path, text))
    for line in code(path + '.rt').split('\n'):
        if line.startswith('ghost use Rattle.') and any(is_used(n, text) for n in brought(line)):
            yield from (used for _, used in named(path, line))

# ── imports that nothing uses ──

IMPORT = re.compile(r'^\s*(ghost |pub |unfoldable pub )?use (.*)$')

# the names that a `use` brings in
def brought(line):
    listed = re.search(r'\{([^}]*)\}', line)
    names = listed.group(1).split(',') if listed else [re.split(r'::|\.', line.strip().rstrip(';'))[-1]]
    return [n.split(' as ')[-1].strip() for n in names]

# `◌+◌` is used where `+` stands, `◌>>=◌` where a `do` does
def is_used(name, body):
    if name == '◌>>=◌':
        return re.search(r'\bdo\b', body) is not None
    parts = [p for p in name.split('◌') if p]
    return all(re.search(rf'(?<!{WORD}){re.escape(p)}(?!{WORD})' if re.match(r'\w', p) else re.escape(p), body) for p in parts)

# in code and in these files of specs/
def unused(crate, believed):
    for path, text in sources(crate):
        if '/src/' not in path and path not in believed:
            continue
        lines = text.split('\n')
        body = '\n'.join(l for l in lines if not IMPORT.match(l))
        for number, line in enumerate(lines, 1):
            if IMPORT.match(line) and 'pub use' not in line:
                names = [n for n in brought(line) if not is_used(n, body)]
                if names:
                    yield f'{path}:{number}: {", ".join(names)} is imported and not used'
