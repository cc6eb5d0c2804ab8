#!/usr/bin/env python3
"""Computes the definitions on cases of the reference: six numbers, and every word of the table where it is accepted.

    cd tests/compare && cargo run --offline -- antt --seed 7 --count 120 --max-words 128 | ../../tools/compute.py

Each case becomes a theorem shown by computing, in a throwaway crate beside a copy of this repository's; a difference is a refused theorem.
"""
import os, re, shutil, subprocess, sys, tempfile

ROOT = os.path.dirname(os.path.dirname(os.path.abspath(__file__)))
HEAD = '''-- Cases of the reference.
use Rattle.std.specs.Prelude.{◌≡◌, List, [], ◌∷◌, ◌++◌, true, take, replicate}
use Rattle.std.proofs.Common.{refl}
use Rattle.lists.specs.Lists.{same}
use Rattle.error.specs.Answer.{numbers}
use Rattle.load.specs.Load.{load, table_after}
use Rattle.law_everything.specs.Everything.{everything}
'''

def words(text):
    return '(' + ''.join(w + ' ∷ ' for w in text.split()) + '[])'

# zeros in a row by `replicate`, so that the file stays short
def data(text):
    ns, out, i = [int(w) for w in text.split()], [], 0
    while i < len(ns):
        j = i
        while j < len(ns) and (ns[j] == 0) == (ns[i] == 0):
            j += 1
        out.append('replicate %d 0' % (j - i) if ns[i] == 0 else words(' '.join(map(str, ns[i:j]))))
        i = j
    return '(' + ' ++ '.join(out or ['[]']) + ')'

def theorem(name, left, right):
    return f'\n{name} : same {left} {right} ≡ true\nunfolding everything\n{name} = refl\n'

def case(k, line):
    sheet, hosts, table, work, six, linked = [part.strip() for part in line.split('|')]
    given = f'{data(sheet)} {data(hosts)}'
    text = theorem(f'answer_{k}', f'(numbers (load {given} {table} {work}))', words(six))
    if linked != '-':
        after = f'(take {len(linked.split())} (table_after {given} (replicate {table} 7) (replicate {work} 7)))'
        text += theorem(f'table_{k}', after, words(linked))
    return text

def main():
    lines = [l for l in sys.stdin.read().split('\n') if l.strip()]
    with tempfile.TemporaryDirectory() as top:
        shutil.copytree(f'{ROOT}/crates', f'{top}/crates', ignore=shutil.ignore_patterns('out', 'must-fail'))
        crates = open(f'{ROOT}/crates.txt', encoding='utf-8').read()
        uses = next(l for l in crates.split('\n') if l.startswith('law_everything:')).split(':')[1]
        open(f'{top}/crates.txt', 'w', encoding='utf-8').write(f'{crates}\ncases:{uses} law_everything\n')
        os.makedirs(f'{top}/crates/cases/specs')
        os.makedirs(f'{top}/crates/cases/src')
        open(f'{top}/crates/cases/src/lib.rt', 'w').write('// Cases of the reference.\n#![tactic(auto)]\n')
        groups = [lines[i:i + 6] for i in range(0, len(lines), 6)]
        for g, group in enumerate(groups):
            text = HEAD + ''.join(case(k, line) for k, line in enumerate(group))
            open(f'{top}/crates/cases/specs/Cases{g}.antt', 'w', encoding='utf-8').write(text)
        open(f'{top}/crates/cases/specs/Lib.antt', 'w').write(''.join(f'pub mod Cases{g}\n' for g in range(len(groups))))
        run = subprocess.run(['rt', 'check'], cwd=f'{top}/crates/cases', capture_output=True, text=True)
        wrong = [l for l in (run.stdout + run.stderr).split('\n') if re.search(r'\.antt:[0-9]+:[0-9]+: error', l)]
        if run.returncode and not wrong:
            sys.exit('\n'.join(['compute.py: nothing was computed, since rt check failed', *(run.stdout + run.stderr).split('\n')[-20:]]))
        print('\n'.join(wrong[:20]) or f'{len(lines)} cases computed, no difference')
        sys.exit(1 if wrong else 0)

if __name__ == '__main__':
    main()
