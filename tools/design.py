#!/usr/bin/env python3
"""The places of docs/DESIGN-PASS.md, counted: a line for each of its points and how many it finds.

    tools/design.py            the counts
    tools/design.py POINT      the places of a point, as 1a
    tools/design.py --shapes   the other way for twins: functions whose bodies are alike but for names and numbers

Run at the top of the repository. It finds what a pattern finds: the page says what of it is no place, and what it misses.
"""
import collections, glob, re, sys

SRC = sorted(glob.glob('crates/*/src/**/*.rt', recursive=True))
CLAUSE = re.compile(r'\s*(requires|ensures|//|ghost use)')

def lines():
    for path in SRC:
        for n, line in enumerate(open(path, encoding='utf-8'), 1):
            yield path, n, line.rstrip('\n')

def matching(pattern, clauses=False):
    want = re.compile(pattern)
    return [f'{p}:{n}: {l.strip()}' for p, n, l in lines() if want.search(l) and (clauses or not CLAUSE.match(l))]

# enums of at most three variants of which one holds a value
def shaped():
    found = []
    for path in SRC:
        text = open(path, encoding='utf-8').read()
        for m in re.finditer(r'^(?:pub )?enum (\w+) \{\n(.*?)^\}', text, re.M | re.S):
            variants = [v for v in m.group(2).splitlines() if re.match(r'    [A-Z]', v)]
            if len(variants) <= 3 and any('(' in v for v in variants):
                found.append(f'{path}:{text[:m.start()].count(chr(10)) + 1}: {m.group(1)}')
    return found

# a refusal that is given on as it came
PASSED = (r'(?:\w+::)?(?:Broken|Refused|Missing|Err|None)(?:\((\w+)\))? => (?:\{\s*return )?(?:\w+::)?(?:Broken|Refused|Err|None)(?:\(\1\))?[;,\s]'
          r'|let (?:\w+::)?\w+\([^)]*\) = [^;]*? else \{\s*return (?:\w+::)?(?:Broken|None)[;,]')

def passed():
    found = []
    for path in SRC:
        text = open(path, encoding='utf-8').read()
        found += [f'{path}:{text[:m.start()].count(chr(10)) + 1}: {m.group(0).split(chr(10))[0]}' for m in re.finditer(PASSED, text)]
    return found

def answers():
    found = []
    for path in sorted(glob.glob('crates/*/proofs/**/Answers.antt', recursive=True)):
        for n, line in enumerate(open(path, encoding='utf-8'), 1):
            if line.startswith('pub '):
                found.append(f'{path}:{n}: {line.strip()}')
    return found

FUNCTION = re.compile(r'^\s*(?:pub )?(?:extern "C" )?fn (\w+)')

# functions with these parameters, by the names in their heads
def together(*names):
    found = []
    for path in SRC:
        text = open(path, encoding='utf-8').read()
        for m in re.finditer(r'^\s*(?:pub )?(?:extern "C" )?fn (\w+)[^{]*?\(([^{]*?)\)', text, re.M):
            has = re.findall(r'(?:^|[,(\s])(?:mut )?(\w+):', m.group(2))
            if all(n in has for n in names):
                found.append(f'{path}:{text[:m.start()].count(chr(10)) + 1}: {m.group(1)}')
    return found

POINTS = {
    '1a enums of the shape of Option or Result': shaped,
    '1b refusals passed on by hand': passed,
    '1c numbers for answers': lambda: matching(
        r'fn (descends|ask|ask_number|paqlluri_descends|parent_of|end_of|count_listed|size_of|count_declared|scan|between|find_place|type_kind|'
        r'replay_one|index_part)\b|pub (func|pc): u32|family: usize'),
    '1d numbers for kinds of words': lambda: matching(
        r'match (word\(sheet|kind|given|d )|(kind|given|d|edition) (==|<) [0-9]+|== (1|2|6|12|13|3)\b|!= (4|12)\b|[^a-z]w < 1[136]|code: u32|'
        r'hook: u32|/ 2 % 2|low % 256|< 11 '),
    '3a while and loop': lambda: matching(r"^\s*('\w+: )?(while |loop \{)"),
    '3b while and loop that count': lambda: matching(r'^\s*\w+ (\+|-)= 1;'),
    '3c for': lambda: matching(r"^\s*('\w+: )?for "),
    '4 equality, order, copies, conversion and printing': lambda: matching(
        r'fn (are_same|is_done|same_pair|compare_words|compare_run|pick|before|head_of|least|weighed_bytes|deeper|larger|capped|both|chosen|widen|wide|'
        r'what_word|type_kind_word|refusal|numbers|wanted_word|place|word_of|le|end_of|entry_word|read_answer|print_numbers|print_total|print_counts|'
        r'print_word|print_count|nothing|no_totals|number_blocks|put|find_place|compare_entry|copy_word|copy_run|copy_back|copy_pairs|'
        r'paqlluri_family_size|paqlluri_chain_length|paqlluri_nearest|paqlluri_count_structs|paqlluri_load|verdict)\b'),
    '4b fields written twice': lambda: matching(r'^\s+(\w+): \1,$'),
    '5a sheet, work, o together': lambda: together('sheet', 'work', 'o'),
    '5b table, at together': lambda: together('table', 'at'),
    '5c hosts, n, index together': lambda: together('hosts', 'n', 'index'),
    '5d bytes, words, n, edges_at together': lambda: together('words', 'work', 'n', 'edges_at'),
    '5e clauses Ready': lambda: matching(r'requires.*Ready \(sheet_words sheet\.(now|old) o\)', clauses=True),
    '6 buffers, arrays side by side, searched lists, arenas': lambda: matching(
        r'FIELDS\[|TERMINATES\[|RULES\[|let mid = lo \+|loop \{|\[0u?8?3?2?; ?(8193|4096|16320|4064|44|8|65536|262144|1537|390142|2097664)\]|'
        r'\[(TABLE|WORK)_BEFORE|lines: &mut|pub words: usize'),
    '7 switches on which step to run': lambda: matching(
        r'part: Part|k: ListKind|slot: Slot|marked: bool|res: bool|scheduler: bool|covered: bool|if most == (256|64)|match rule \{|late: bool|'
        r'enum (Part|ListKind|Slot|Rule|FieldKind)'),
    '8a answers': answers,
    '8b answers that are a search of rules': lambda: [
        f'{p}:{n}: {l.strip()}' for p in sorted(glob.glob('crates/*/proofs/**/Answers.antt', recursive=True))
        for n, l in enumerate(open(p, encoding='utf-8'), 1) if re.search(r'= search \(rules(, [^ ,()]+)*\) *$', l)],
    '9a functions': lambda: matching(FUNCTION.pattern),
    '9b closures': lambda: matching(r'\|[a-z_, &]+\| '),
    '9c question marks': lambda: matching(r'\?;|\?[,)]|\?\s*$'),
    '9d impl blocks': lambda: matching(r'^\s*impl\b'),
}

# the body's tokens, names and numbers blanked in the order in which they come
def shape(body):
    keep = {'let', 'mut', 'while', 'if', 'else', 'match', 'return', 'for', 'in', 'loop', 'as', 'usize', 'u32', 'u8', 'break', 'continue'}
    seen, out = {}, []
    for t in re.findall(r'[A-Za-z_]\w*|\d[\w_]*|::|=>|[-+*/%<>=!&|]=?|\S', body):
        if re.match(r'[A-Za-z_]', t):
            out.append(t if t in keep else f'v{seen.setdefault(t, len(seen))}')
        else:
            out.append('n' if re.match(r'\d', t) else t)
    return ' '.join(out), len(out)

def shapes():
    groups = collections.defaultdict(list)
    for path in SRC:
        text = [re.sub(r'//.*', '', l) for l in open(path, encoding='utf-8').read().split('\n')]
        for i, line in enumerate(text):
            m = FUNCTION.match(line)
            if m:
                indent = line[:len(line) - len(line.lstrip())]
                end = next(j for j in range(i, len(text)) if text[j] == indent + '}')
                start = next(j for j in range(i, end) if text[j] == indent + '{' or text[j].endswith(' {'))
                key, size = shape('\n'.join(text[start + 1:end]))
                if 12 <= size:
                    groups[key].append(f'{path}:{i + 1} {m.group(1)}')
    twins = [g for g in groups.values() if 1 < len(g)]
    for g in sorted(twins, key=len, reverse=True):
        print(len(g), '; '.join(g))
    print('groups', len(twins), 'functions', sum(map(len, twins)))

def main(args):
    if args == ['--shapes']:
        return shapes()
    for name, find in POINTS.items():
        if not args:
            print(f'{len(find()):5} {name}')
        elif name.split()[0] in args:
            print('\n'.join(find()))

if __name__ == '__main__':
    main(sys.argv[1:])
