"""Kind 8 in words: what is called, how many arguments it takes, and how many the instruction gives."""
from .blocks import MAY_LEAVE_OUT, Broken
from .codes import FLAGS, OPS, slots
from .families import plural, shortened
from .module import SHEET, Func, read

OPTIONAL = 1 << FLAGS.index('optional')
# by code, whether a direct call names a function or an import
CALLED = {code: kind for code, op in enumerate(OPS) for slot, kind in op.fields if slot == 'w' and op.modifier == 'argc'}

class Unfit(Exception):
    """The sheet has no call that this refusal fits: a false sentence would be worse than none."""

# a refusal without a place has 0 for a place + 1, and -1 must not count from the end
def member(members, number):
    if not 0 <= number < len(members):
        raise Unfit
    return members[number]

# the fewest and the most arguments, by docs/FORMAT.md, "What the own rules ask"
def taken(module, kind, callee):
    signature = member(module.types, callee.sig)
    if not isinstance(signature, Func):
        raise Unfit
    most = len(signature.params)
    if kind == 'function' or callee.params is None or module.edition not in MAY_LEAVE_OUT:
        return most, most
    if len(callee.params) != most:
        raise Unfit
    return sum(not flags & OPTIONAL for flags, _ in callee.params), most

# the limit that so many arguments break, if any
def broken(least, most, found):
    return least if found < least else most if found > most else None

# a function by its number, an import by its texts too
def named(module, kind, number, callee):
    if kind == 'function':
        return f'function {number}'
    name, where = (shortened(member(module.strings, string)) for string in (callee.name, callee.module))
    return f'import {number}, {name!r} of module {where!r},'

# the call at the place of the refusal
def told(module, numbers):
    *_, expected, found, function, position = numbers
    low, high = member(member(module.functions, function - 1).code, position - 1)
    kind, given = CALLED.get(low & 255), slots(low, high)
    callee = member(dict(function=module.functions, **{'import': module.imports}).get(kind, []), given['w'])
    least, most = taken(module, kind, callee)
    if given['d'] != found or broken(least, most, found) != expected:
        raise Unfit
    takes = plural(most, 'argument') if least == most else f'{least} to {most} arguments'
    return f'{named(module, kind, given["w"], callee)} takes {takes}, found {found}'

# None where the numbers have to speak for themselves
def wrong_call(sheet, numbers):
    try:
        return told(read(sheet, SHEET), numbers)
    except (Broken, Unfit):
        return None
