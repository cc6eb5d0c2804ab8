#!/usr/bin/env python3
"""Writes what the program `checker` is run on: an empty sheet and an empty host list. Samples that tools/sheet writes from their texts come out
the same here, so that two writers that share nothing are held to one another."""
import os
from instructions import CODE
from sheets import CRATES, DYN, I64, STR, fn, func, host_list, import_, inst, param_list, parts, ref, sheet, struct, text

SAMPLES = os.path.dirname(CRATES) + '/samples'
HOSTS = [('desk', 'price', False), ('desk', 'print', False), ('desk', 'spawn', True)]
FUNC_ITEM, GLOBAL_ITEM, TYPE_ITEM = range(3)

# a tariff: families of lifts, each with its parent's fields first, and what a call-out to a lift costs; `last` ends the function that says it
def lifts(last=inst(CODE['ret'], 2)):
    strings = ['Lift', 'floors', 'load in kg', 'PassengerLift', 'persons', 'GoodsLift', 'doors', 'HydraulicGoodsLift', 'oil in l',
               'desk', 'price', 'call-out', 'hours', 'night surcharge']
    number = strings.index
    lift = [(number('floors'), I64), (number('load in kg'), I64)]
    goods = lift + [(number('doors'), I64)]
    families = [('Lift', lift, None), ('PassengerLift', lift + [(number('persons'), I64)], 0), ('GoodsLift', goods, 0),
                ('HydraulicGoodsLift', goods + [(number('oil in l'), I64)], 2)]
    types = [struct(fields, parent, name=number(name)) for name, fields, parent in families]
    types += [fn([ref(0), I64], [I64]), fn([STR], [I64]), fn()]
    # registers: the lift, the hours, the price, what is asked of the desk
    price = func(4, [ref(0), I64, I64, STR], param_list((0, 0), (0, number('hours') + 1)),
                 code=[inst(CODE['load-constant'], 3, w=0), inst(CODE['call-import'], 2, d=1, w=0), inst(CODE['i-add'], 2, 2, 1), last])
    # a goods lift is made, and a failure caught
    start = func(6, [ref(2), DYN], type_refs=[2], handlers=[(0, 1, 1, 1)], code=[inst(CODE['new-struct'], 0, 0), inst(CODE['ret-void'])])
    return sheet(parts(strings, types, consts=[text(number('call-out')), [0, 45, 0]], imports=[import_(5, number('desk'), number('price'))],
                       globals_=[[I64, 2]], funcs=[price, start], start=2,
                       exports=[(FUNC_ITEM, number('call-out'), 0), (GLOBAL_ITEM, number('night surcharge'), 0)]
                       + [(TYPE_ITEM, number(name), t) for t, (name, _, _) in enumerate(families)]))

# written by tools/sheet
SAME = {
    f'{SAMPLES}/hosts': host_list(HOSTS),
    f'{SAMPLES}/empty.sheet': sheet(parts()),
    f'{SAMPLES}/lifts.sheet': lifts(),
    f'{SAMPLES}/self-parent.sheet': sheet(parts(['Lift'], [struct(parent=0)])),
}
FILES = {
    f'{CRATES}/checker/stdin': sheet(parts()),
    f'{CRATES}/checker/data/hosts': host_list([]),
    f'{CRATES}/checker/stdout': b'0 0 49 0 0 0\n',
}

if __name__ == '__main__':
    for path, data in FILES.items():
        os.makedirs(os.path.dirname(path), exist_ok=True)
        with open(path, 'wb') as f:
            f.write(data)
