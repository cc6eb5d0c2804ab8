"""What tests/readme asks of docs/FORMAT.md: its examples are what the programs give, its tables are those of the definitions, of README.md
and of the C header; and that what editions decide is the same everywhere."""
import os, re, subprocess, sys, tempfile
from tally import ROOT, built, compare
sys.path.insert(0, ROOT + '/tools')
from sheetform.blocks import EDITIONS, MAY_LEAVE_OUT, MOST_ON_CHAIN

FORMAT = 'docs/FORMAT.md'

def text(path):
    with open(f'{ROOT}/{path}', encoding='utf-8') as f:
        return f.read()

def data(path):
    with open(f'{ROOT}/{path}', 'rb') as f:
        return f.read()

# ── headings ──

# a document without its fenced blocks
def prose(path):
    return re.sub(r'^```.*?^```\n', '', text(path), flags=re.M | re.S)

def headings(path):
    return re.findall(r'^#+ (.*)$', prose(path), re.M)

# as GitHub makes it of a heading
def anchor(heading):
    return re.sub(r'[^\w -]', '', heading.lower()).replace(' ', '-')

def anchors(path):
    return [anchor(heading) for heading in headings(path)]

# what stands under a heading, up to the next one
def section(heading):
    return re.search(r'^#+ ' + re.escape(heading) + r'\n(.*?)(?=^##|\Z)', text(FORMAT), re.M | re.S).group(1)

def block(heading, language):
    return re.search(r'^```' + language + r'\n(.*?)^```', section(heading), re.M | re.S).group(1)

def rows(heading):
    cells = [[cell.strip() for cell in line.strip('|').split('|')] for line in section(heading).splitlines() if line.startswith('|')]
    return [row for row in cells if row[0][:1].isdigit()]

# ── citations ──

# the file or folder below crates/ or tests/compare that a citation leads to
def cited_path(file, extension):
    endings = [extension] if extension else ['.antt', '.rt', '']
    return [f'{top}/{file}{end}' for top in ('crates', 'tests/compare') for end in endings if os.path.exists(f'{ROOT}/{top}/{file}{end}')]

# each 'CRATE/specs/FILE' is there, and the names right behind it, of a record's part both, stand in it
def cited_files(path):
    named = r'(?<![\w/])(?:crates/)?(\w+/(?:specs|proofs|src)/\w+)(\.\w+)?`?((?:,? `[\w.+-]+`)*)'
    for file, extension, names in re.findall(named, text(path)):
        found = cited_path(file, extension)
        compare(f'{path}: the file {file}', len(found), 1)
        words = set(re.findall(r'[\w+-]+', ' '.join(text(f) for f in found if os.path.isfile(f'{ROOT}/{f}'))))
        for name in re.findall(r'`([\w.+-]+)`', names):
            compare(f'{path}: {name} of {file}', set(name.strip('.').split('.')) <= words, True)

# the files that people read: no sheets, nothing that is built
def sources():
    yield 'README.md'
    for top in ('docs', 'tests', 'tools', 'bindings', 'samples'):
        for folder, inner, files in os.walk(f'{ROOT}/{top}'):
            inner[:] = sorted(name for name in inner if name not in ('target', '__pycache__'))
            yield from (os.path.relpath(f'{folder}/{name}', ROOT) for name in sorted(files) if not name.endswith('.sheet'))

# each 'FORMAT.md, "HEADING", "HEADING"' names headings
def cited_sections():
    known = headings(FORMAT)
    for path in sources():
        for names in re.findall(r'FORMAT\.md(?:\]\([^)]*\))?, ((?:"[^"\n]+"(?:, )?)+)', data(path).decode('utf-8', 'replace')):
            for name in re.findall(r'"([^"]+)"', names):
                if name != 'HEADING':
                    compare(f'{path}: the section {name} of FORMAT.md', name in known, True)

# headings lead to one place each, and each paragraph says where its definition or its law is
def paragraphs():
    found = anchors(FORMAT)
    compare(f'{FORMAT}: headings that stand twice', [a for a in found if found.count(a) > 1], [])
    for part in re.split(r'\n{2,}', prose(FORMAT).split('\n## ', 1)[1].strip())[1:]:
        if not re.match(r'[#|-]|\d+\. ', part):
            compare(f'{FORMAT}: a definition for "{part[:60]}"', bool(re.search(r'\(`\w+/(specs|src|proofs)/[^()]*\)$', part)), True)

# ── examples ──

# the numbers before '#' on each line; where the comment says which word it is, it is that one
def words_of(heading):
    found = []
    for line in block(heading, 'words').splitlines():
        numbers, _, comment = line.partition('#')
        said = re.match(r' word (\d+)', comment)
        if said:
            compare(f'{FORMAT}, "{heading}": {comment.strip()}', len(found), int(said.group(1)))
        found += map(int, numbers.split())
    return found

# the words of a sheet of one block, and its check word
def words_in(sheet):
    words = [int.from_bytes(sheet[k:k + 4], 'little') for k in range(0, 512, 4)]
    compare(f'{FORMAT}: one block, zero after N', (len(sheet), any(words[words[1]:127])), (512, False))
    return words[:words[1]], words[127]

def linked(sheet, hosts):
    with tempfile.TemporaryDirectory() as where:
        with open(where + '/hosts', 'wb') as f:
            f.write(hosts)
        printed = subprocess.run([f"{ROOT}/{built('linker')}"], cwd=where, input=sheet, stdout=subprocess.PIPE).stdout
    return list(map(int, printed.split()))

def sheet_of(source):
    return subprocess.run([ROOT + '/tools/sheet', 'write', '-', '-o', '-'], input=source.encode(), stdout=subprocess.PIPE).stdout

# pre, post and the chain length of a type, if it is one, of a table that is linked
def span(table, t):
    first = table[9] + 1
    return table[first + 3 * t:first + 3 * t + 3] if t < table[table[9]] else None

# FORMAT.md, "The family query"
def query(table, t, a):
    of_t, of_a = span(table, t), span(table, a)
    return int(bool(of_t and of_a) and of_a[0] <= of_t[0] < of_a[1])

# FORMAT.md, "The size of a family"
def size(table, a):
    pre, post, _ = span(table, a) or (0, 0, 0)
    return max(0, post - pre)

# FORMAT.md, "The length of a chain"
def length(table, t):
    return (span(table, t) or (0, 0, 0))[2]

def example(sheet, words, table):
    found, check = words_in(sheet)
    compare(f'{FORMAT}: {words}', words_of(words), found)
    under = linked(sheet, data('samples/hosts'))
    compare(f'{FORMAT}: {table}', [0, 0, len(words_of(table)), 0, 0, 0] + words_of(table), under)
    return check, under[6:]

def examples():
    empty = data('samples/empty.sheet')
    check, _ = example(empty, 'The empty sheet', 'The table of the empty sheet')
    compare('its check word', f'= {check}. ' in section('The empty sheet'), True)
    shown = bytearray(512)
    for place, held in re.findall(r'^\| (\d+) to \d+ \| ((?:[0-9a-f]{2} ?)+) \|$', section('The empty sheet'), re.M):
        shown[int(place):int(place) + 4] = bytes.fromhex(held)
    compare('its bytes', bytes(shown), empty)
    check, table = example(sheet_of(block('A small tariff', 'text')), 'A small tariff', 'The table of the small tariff')
    compare("the small tariff's check word", f'its check word is {check}.' in section('A small tariff'), True)
    yes, no = section('The table of the small tariff').split('answers 1 for')[1].split('and 0 for')
    for answer, pairs in ((1, yes), (0, no)):
        for t, a in re.findall(r'\((\d+), (\d+)\)', pairs):
            compare(f'the query on ({t}, {a})', query(table, int(t), int(a)), answer)
    for heading, number in (('The size of a family', size), ('The length of a chain', length)):
        said = re.findall(rf'type (\d+)(?: has)? {number.__name__} (\d+)', section(heading))
        compare(f'the small tariff: {heading}', [(t, str(number(table, int(t)))) for t, _ in said], said)
        compare('how many of them', len(said), 4)

# the lines of "The report" are what the program prints of that sheet and of a file that is not there
def reported():
    shown = re.search(r'no bytes: ((?:`[\d ]+`(?:, )?)+)\.', section('The report')).group(1)
    stored = ROOT + '/crates/report/data'
    r = subprocess.run([f"{ROOT}/{built('report')}", 'root-last', 'none'], cwd=stored, stdout=subprocess.PIPE, text=True)
    compare(f'{FORMAT}: the lines of the report', re.findall('`(.*?)`', shown), r.stdout.splitlines())

# a call of an import with a mandatory parameter and an optional one
CALL = '''sheet edition {}
type Asked func(dyn, dyn)
type Started func()
import ask "desk" "price" Asked
  parameters -, optional -
function caller Started
  registers dyn, dyn, dyn, dyn
    call-import r0 ask argc={}
    ret-void
'''

# what "What the own rules ask" says of so many arguments is what the program says
def arity():
    kind = {}
    for edition, given in [(edition, given) for edition in (1, 2) for given in range(4)]:
        numbers = linked(sheet_of(CALL.format(edition, given)), data('samples/hosts'))[:6]
        kind[edition, given] = ' '.join(map(str, numbers[:4])) if numbers[0] else 'holds'
    compare('one or two arguments', [kind[2, 1], kind[2, 2], kind[1, 2]], ['holds'] * 3)
    sentence = f'D = 0 is `{kind[2, 0]}`, 1 and 2 hold, and 3 is `{kind[2, 3]}`; in edition 1 D = 1 is `{kind[1, 1]}`.'
    compare(f'{FORMAT}: {sentence}', sentence in section('What the own rules ask'), True)

# ── tables ──

KINDS = dict(Unused='–', Reg='register', Target='target', Const='constant', Func='function', Import='import', Global='global', Table='table',
             Name='name', TypeRef='type ref', Upval='capture', Shape='call shape')

# the 35 rows of the definition, in FORMAT.md's words
def codes():
    defined = []
    row = r'(last|step) (\w+) (\w+) (\w+) (\w+) [^\n]*-- (\d+) (\w+)'
    for ends, a, b, w, c, code, name in re.findall(row, text('crates/code/specs/Opcodes.antt')):
        second = f'B {KINDS[b]}' if b != 'Unused' else f'W {KINDS[w]}' if w != 'Unused' else '–'
        defined.append([code, name, 'ends' if ends == 'last' else '', KINDS[a], second, '–' if c == 'Unused' else f'C {KINDS[c]}'])
    compare(f'{FORMAT}: codes', len(defined), 35)
    compare(f'{FORMAT}: the 35 codes', [row[:6] for row in rows('The 35 codes')], defined)

# the 31 shapes of the definition
def hooks():
    source = text('crates/hooks/specs/Hooks.antt')
    shape = r'(\w+) = record \{ params = (\d+); result = (\w+) \}'
    shapes = {name: (params, 'dyn' if result == 'true' else 'none') for name, params, result in re.findall(shape, source)}
    line = re.search(r'^hook_shapes = (.*)', source, re.M).group(1)
    defined = [shapes[name] for count, name in re.findall(r'replicate (\d+) (\w+)', line) for _ in range(int(count))]
    found = []
    for row in rows('Hook shapes'):
        first, last = (row[0].split(' to ') * 2)[:2]
        found += [tuple(row[2:4])] * (int(last) + 1 - int(first))
    compare(f'{FORMAT}: the hook shapes', found, defined)
    compare(f'{FORMAT}: hooks', len(found), 31)

# those of the tools are the definition's; the bindings name all that the edition decides, and FORMAT.md cites it
def editions():
    source = text('crates/sheet/specs/Editions.antt')
    newest = re.search(r'^newest_edition = (\d+)$', source, re.M).group(1)
    second, first = re.search(r'^most_on_chain edition = cond \(eqb edition 2\) (\d+) (\d+)$', source, re.M).groups()
    compare('the editions of a sheet', EDITIONS, list(range(1, int(newest) + 1)))
    compare('the most types on a chain', MOST_ON_CHAIN, {1: int(first), 2: int(second)})
    alone = [re.search(rf'^{name} edition = eqb edition (\d+)$', source, re.M).group(1) for name in ('reads_export_names', 'may_leave_out')]
    compare('the editions in which arguments may be left out', MAY_LEAVE_OUT, [int(alone[1])])
    sentences = (r'at most (\d+) types in edition 1 and (\d+) in edition 2\. The names of exports are read in edition (\d+) alone: [^.]*\. '
                 r'The optional arguments of an import may be left out in edition (\d+) alone\. Nothing else depends on the edition\.')
    for path in ('bindings/c/paqlluri.h', 'bindings/rust/src/lib.rs'):
        said = re.findall(sentences, re.sub(r'\n(///| \*)', '', text(path)))
        compare(f'{path}: what the edition decides', said, [(first, second, *alone)])
    decided = re.findall(r'^unfoldable pub (\w+) : ℕ →', source, re.M)
    differ = r'The editions differ in (\w+) things: .*\(`sheet/specs/Editions`, (.*)\)'
    count, cited = re.search(differ, section('Edition and length')).groups()
    compare(f'{FORMAT}: what the edition decides', re.findall(r'`(\w+)`', cited), decided)
    compare(f'{FORMAT}: how many things that is', count, ['one', 'two', 'three', 'four'][len(decided) - 1])

def snake(name):
    return re.sub(r'(?<!^)(?=[A-Z])', '_', name).upper()

# numbers, names and words of the kinds: README.md's and the header's
def kinds():
    found = {int(row[0]): row[1:3] for row in rows('The kinds')}
    compare(f'{FORMAT}: kinds', list(found), list(range(29)))
    table = re.findall(r'^\| (\d+) \| (.*?) \| \| (\d+) \| (.*?) \|$', text('README.md'), re.M)
    remark = r' \((word|number|number, second|`descends`).*\)$'
    said = {int(k): re.sub(remark, '', words) for row in table for k, words in (row[:2], row[2:])}
    compare('the kinds of README.md are those of FORMAT.md', said, {k: means for k, (_, means) in found.items() if k})
    header = text('bindings/c/paqlluri.h')
    entries = {name: (int(number), words) for name, number, words in re.findall(r'PAQLLURI_(\w+) = (\d+),?(?: +/\* (.*?) \*/)?', header)}
    for kind, (name, means) in found.items():
        number, words = entries.get(snake(name), (None, ''))
        compare(f'paqlluri.h: kind {kind}, {name}', (number, re.sub(r'(;| \().*', '', words) if kind else means), (kind, means))
    for heading in ('Words of kind 3', 'Words of kind 11'):
        listed = re.findall(r'(\d+) ([a-z ]+)[,.]', section(heading).split('\n\n')[0])
        for number, what in listed:
            name = 'FUNC' if what == 'function' else what.replace(' ', '_').upper()
            compare(f'paqlluri.h: {heading}, {what}', entries.get(name, [None])[0], int(number))
        compare(f'{FORMAT}: {heading}', len(listed), 14 if heading.endswith(' 3') else 4)
    sentence = re.search(r'Words of kind 3: (.*)', text('README.md')).group(1)
    compare('the words of kind 3 of README.md are those of FORMAT.md', section('Words of kind 3').strip().startswith(sentence), True)
