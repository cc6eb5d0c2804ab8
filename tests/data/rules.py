#!/usr/bin/env python3
"""Writes what the program `judge` is run on: its sheets and its host list (data/), its arguments, and what it must print, each case by what it is meant to be.

A case is the parts of a sheet and its six numbers, those not given being 0; by docs/FORMAT.md, apart from the definitions, one file for each
group of rules.
The program prints 0 for the length of an accepted sheet. It takes at most 16 blocks.
"""
import arguments, code, ends, front, instructions, records
from answers import BROKEN, HOLDS, collection, line
from sheets import COROUTINE, MOST, array, host_list, ref, write

CASES, case = collection()
case('empty', HOLDS)
CASES.append(('no-bytes', b'', line(BROKEN)))
case('empty-of-edition-2', HOLDS, edition=2)
for other in (0, 3, MOST):
    case(f'edition-{other}', BROKEN, edition=other)
case('type-kind-7', BROKEN, types=[[7], array(ref(9))])
# N = 11 + 2,021 = 2,032 words fill 16 blocks; a block more counts as no bytes
case('sixteen-blocks', HOLDS, types=[COROUTINE] * 2021)
case('seventeen-blocks', BROKEN, types=[COROUTINE] * 2022)

if __name__ == '__main__':
    groups = [CASES, front.CASES, records.CASES, code.CASES, instructions.CASES, arguments.CASES, ends.CASES]
    write('judge', sum(groups, []), line(BROKEN), host_list(records.HOSTS))
