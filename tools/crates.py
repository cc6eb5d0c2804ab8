#!/usr/bin/env python3
"""The crates: the tables of docs/ARCHITECTURE.md, crates.txt and the tree, held to each other, and what of specs/ must be believed.

    crates.py            lines of definitions, laws, contracts, code and proofs, crate by crate
    crates.py --write    writes crates.txt, the columns believe and laws, and the figures of documents, from the tables' order and edges
    crates.py --check    fails where tables, crates.txt, documents and tree do not agree

Believed is what the statements import, and what that imports, and so on; the rest of specs/ follows from it, or is for inner contracts.
"""
import glob, os, re, sys
from itertools import zip_longest

sys.dont_write_bytecode = True
from imports import IMPORT, ROOT, cited, closure, contract, declared, edges, files, read, unused

# what is claimed: the calls and their answers, the demands, sizes, lengths, nearest families and reports, and two claims of their own
STATEMENTS = [
    'load/specs/Load', 'descends/specs/Descends', 'error/specs/Answer', 'calls/specs/Calls', 'calls/specs/EditionCalls',
    'calls/specs/ExportCalls', 'calls/specs/ArgumentCalls', 'law_forest/specs/Limits', 'law_rows/specs/Rows', 'utf8/specs/Grammar',
    'descends/specs/Sizes', 'descends/specs/Lengths', 'descends/specs/Nearest', 'families/specs/Counted', 'report_lines/specs/Report',
    'family_calls/specs/FamilyCalls', 'family_calls/specs/NearestCalls', 'family_calls/specs/LengthCalls',
]
# what a user can call, and what is claimed of it: contracts without `requires`, which cite believed files only
CALLS = {
    'loader/src/lib': ['load'], 'query/src/lib': ['descends', 'family_size', 'chain_length'], 'query_nearest/src/lib': ['nearest'],
    'family_sheets/src/lib': ['count_structs'],
    'paqlluri/src/lib': ['paqlluri_load', 'paqlluri_descends', 'paqlluri_family_size', 'paqlluri_count_structs'],
    'paqlluri/src/lengths': ['paqlluri_chain_length'], 'paqlluri/src/nearest': ['paqlluri_nearest'],
    'paqlluri_c/src/lib': [
        'paqlluri_load', 'paqlluri_descends', 'paqlluri_family_size', 'paqlluri_chain_length', 'paqlluri_nearest', 'paqlluri_count_structs',
    ],
    'claims/src/lib': [
        'call', 'ask', 'ask_size', 'ask_length', 'ask_nearest', 'count',
        'call_numbers', 'ask_number', 'ask_size_numbers', 'ask_length_numbers', 'ask_nearest_numbers', 'count_numbers',
    ],
    'sheet_report/src/lib': ['report_sheet'],
}
STATIC = ['paqlluri_c']
PAGE, LIST, FIGURES = 'docs/ARCHITECTURE.md', 'crates.txt', 'docs/PROVING.md'

def words(cell):
    return [w for w in re.split(r'[ ,]+', cell.strip()) if w]

class Row:
    def __init__(self, layer, cells):
        self.layer, self.uses, self.holds = layer, words(cells[3]), cells[4]

# the rows below each '### LAYER' of the section on crates, in their order
def rows():
    found, layer = {}, None
    for line in section().split('\n'):
        if line.startswith('### '):
            layer = line[4:]
        cells = [c.strip() for c in line.strip('|').split('|')]
        if line.startswith('|') and len(cells) == 5 and cells[0] not in ('crate', '---'):
            if cells[0] in found:
                sys.exit(f'crates.py: {PAGE}: {cells[0]} has two rows')
            found[cells[0]] = Row(layer, cells)
    return found

def section():
    return re.search(r'^## The crates\n(.*?)(?=^## )', read(PAGE), re.M | re.S).group(1)

def reached(table, crate):
    out, todo = set(), list(table[crate].uses)
    while todo:
        c = todo.pop()
        if c in table and c not in out:
            out.add(c)
            todo += table[c].uses
    return out

# a '#' heading a layer, then a line a crate: what its files name, in the tables' order; rt goes every way down, so no more is listed
def listing(table):
    lines, layer = [], None
    for name, row in table.items():
        if row.layer != layer:
            lines += ([''] if layer else []) + ['# ' + row.layer]
            layer = row.layer
        below = edges(name)
        lines.append(' '.join([name + (' staticlib:' if name in STATIC else ':')] + [c for c in table if c in below]))
    return '\n'.join(lines) + '\n'

# the files of specs/ of a crate, believed and not
def split(crate, believed):
    here = [p for p in files(crate, 'specs') if not p.endswith('/Lib')]
    return [os.path.basename(p) for p in here if p in believed], [os.path.basename(p) for p in here if p not in believed]

def page(table, believed):
    text = read(PAGE)
    for name, row in table.items():
        believe, laws = (', '.join(x) for x in split(name, believed))
        line = '| ' + ' | '.join([name, believe, laws, ' '.join(row.uses), row.holds]) + ' |'
        text = put(PAGE, text, rf'^\| {name} \|(?: [^|]*\|){{4}}$', re.sub(r'\|  (?=\|)', '| ', line))
    return text

# how much a reviewer opens, where a document says it
def counts(path, believed):
    said = f'{definitions(believed):,} lines of definitions in {len(believed)} files of {opened(believed):,} lines'
    return put(path, read(path), r'[\d,]+ lines of definitions in \d+ files of [\d,]+ lines', said)

# the text with what is said in the place of the pattern, which must be there
def put(path, text, pattern, said):
    changed, n = re.subn(pattern, lambda m: said, text, flags=re.M)
    if n != 1:
        sys.exit(f'crates.py: {path}: /{pattern}/ stands there {n} times, not once')
    return changed

# the figures of docs/PROVING.md, but for the time, which is measured
def figures(table, believed):
    text = read(FIGURES)
    rows = ('definitions (what must be believed)', 'laws and theorems over them', 'contracts, a clause a line', 'code', 'proofs of code')
    for row, n in zip(rows, totals(table, believed)):
        text = put(FIGURES, text, rf'^\| {re.escape(row)} \| [\d,]+ \|$', f'| {row} | {n:,} |')
    edits = len(glob.glob(f'{ROOT}/crates/*/must-fail/*.edit'))
    programs = len(glob.glob(f'{ROOT}/crates/*/src/main.rt'))
    return put(FIGURES, text, r'proves \d+ crates, tries \d+ must-fail edits and runs \d+ programs',
               f'proves {len(table)} crates, tries {edits} must-fail edits and runs {programs} programs')

# what is computed, file by file
def written(table, believed):
    yield LIST, listing(table)
    yield PAGE, page(table, believed)
    yield FIGURES, figures(table, believed)
    for path in ('README.md', 'docs/REVIEW.md'):
        yield path, counts(path, believed)

# ── what does not agree ──

def of_order(table):
    seen = set()
    for name, row in table.items():
        yield from (f'{name}: stands before {u}, which it uses' for u in row.uses if u not in seen)
        seen.add(name)

def of_edges(table):
    for name, row in table.items():
        used = edges(name)
        yield from (f'{name}: the listed edge to {u} is not used' for u in row.uses if u not in used)
        yield from (f'{name}: {u} is used, and no listed edge leads there' for u in sorted(used - reached(table, name)))

def of_belief(believed):
    for path, by in sorted(believed.items()):
        wrong = path.endswith('Laws') or '/specs/' not in path or path.endswith('which is no file')
        if wrong and not by.split(':')[0].endswith('Laws'):
            yield f'{by} names {path}: a statement rests on definitions alone'

def of_calls(believed):
    for path, functions in CALLS.items():
        for function in functions:
            if 'requires' in contract(path, function):
                yield f'{path}: {function} has a `requires`'
            yield from (f'{path}: the contract of {function} cites {w}, which is not believed' for w in cited(path, function) if w not in believed)

# what the way of REVIEW.md names is what there is to read
def of_review(believed):
    way = read('docs/REVIEW.md').split('## The way')[1].split('\nThen the theorems')[0]
    named = {f'{c}/specs/{f}' for c, fs in re.findall(r'(\w+)/specs/(\w+(?:, \w+)*)', way) for f in fs.split(', ')}
    wanted = [*believed, *(path + '.rt' for path in CALLS if not path.startswith('claims')), *declared(believed)]
    yield from (f'docs/REVIEW.md: the way does not name {p}' for p in sorted(wanted) if p not in named and p not in way)
    yield from (f'docs/REVIEW.md: the way names {p}, which is not believed' for p in sorted(named - set(believed)))

# the first line that is another
def of_written(table, believed):
    for path, text in written(table, believed):
        pairs = zip_longest(read(path).split('\n'), text.split('\n'))
        differ = [(n, here, there) for n, (here, there) in enumerate(pairs, 1) if here != there]
        if differ:
            number, here, there = differ[0]
            yield f'{path}:{number}: "{(here or "")[:80]}" is not "{(there or "")[:80]}", as tools/crates.py --write leaves it'

def check(table, believed):
    there = sorted(os.listdir(f'{ROOT}/crates'))
    wrong = [f'{c}: in only one of {PAGE} and crates/' for c in sorted(set(table) ^ set(there))]
    if wrong:
        return wrong
    wrong += [*of_order(table), *of_edges(table), *of_belief(believed)]
    if wrong:
        return wrong
    wrong += [*of_calls(believed), *of_review(believed), *of_written(table, believed)]
    wrong += [f'{c}: {u}' for c in table for u in unused(c, believed)]
    return wrong

# ── lines ──

# without comments, blanks and imports
def counted(text):
    return [s for s in map(str.strip, text.split('\n')) if s and not s.startswith(('--', '//')) and not IMPORT.match(s)]

def definitions(paths):
    return sum(len(counted(read(f'crates/{p}.antt'))) for p in paths)

# what a reviewer opens: the believed files whole, and the types that they take from code
def opened(believed):
    return sum(len(read(f'crates/{p}').split('\n')) - 1 for p in [q + '.antt' for q in believed] + sorted(declared(believed)))

def lines(crate, believed):
    specs = [f'{crate}/specs/{n}' for n in split(crate, believed)[0]], [f'{crate}/specs/{n}' for n in split(crate, believed)[1]]
    code = [s for p in files(crate, 'src') for s in counted(read(f'crates/{p}.rt'))]
    contracts = [s for s in code if re.match(r'(requires|ensures|invariant|measure|decreases)\b', s)]
    return [definitions(specs[0]), definitions(specs[1]), len(contracts), len(code) - len(contracts),
            sum(len(counted(read(f'crates/{p}.antt'))) for p in files(crate, 'proofs'))]

def totals(table, believed):
    return [sum(column) for column in zip(*(lines(crate, believed) for crate in table))]

def main():
    table, believed = rows(), closure(STATEMENTS)
    if sys.argv[1:] == ['--check']:
        wrong = check(table, believed)
        sys.exit('\n'.join('crates.py: ' + w for w in wrong) if wrong else 0)
    if sys.argv[1:] == ['--write']:
        for path, text in written(table, believed):
            with open(f'{ROOT}/{path}', 'w', encoding='utf-8') as f:
                f.write(text)
        return
    shown = '%-18s definitions %5d  laws %5d  contracts %5d  code %5d  proofs %5d'
    for crate in table:
        print(shown % (crate, *lines(crate, believed)))
    print(shown % ('all', *totals(table, believed)))
    print(f'a reviewer opens {len(believed)} files of definitions and {len(declared(believed))} of code: {opened(believed)} lines')

if __name__ == '__main__':
    main()
