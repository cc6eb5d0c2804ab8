"""The nearest family of two types of an accepted sheet in a sentence. Which it is the loader says; the words are the sheet's."""
import os
from .families import LONGEST, shortened, some
from .files import Failed, title
from .lexer import meant
from .loader import NO_FAMILY
from .show import quoted

# the numbers that a number or a name stands for; a name by its bytes, which no locale changes
def types_of(families, given):
    return [given] if isinstance(given, int) else [t for t in families.structs if families.called(t).encode() == os.fsencode(given)]

# what is wrong with a name that stands for none or for several
def unclear(families, name, types):
    text = title(name)
    shown = quoted(shortened(text))
    if types:
        return f'{len(types)} struct types are called {shown}: {", ".join(some(list(map(str, types))))}; give one by its number'
    short = (called for called in map(families.called, families.structs) if len(called) <= LONGEST)
    return f'no struct type is called {shown}{meant(text, short, quoted)}'

# a type in a sentence; the quotation marks show where a name ends, whatever words stand in it
def told(families, t):
    return f'{t} {quoted(shortened(families.called(t)))}'

# what the loader must answer where it goes by the declared parents: the first on the chain of one that is on the other's too
def declared(families, t, u):
    others = set(families.chain(u))
    return next(([0, a] for a in families.chain(t) if a in others), NO_FAMILY)

def sentence(families, t, u, answer):
    # an answer that is not the one which the words would explain is no answer
    if answer != declared(families, t, u) or families.refused():
        says = ' '.join(map(str, answer)) or 'nothing'
        raise Failed(f'no answer: the loader says {says} of types {t} and {u}, which is not what the sheet declares')
    if answer == NO_FAMILY:
        return f'none: {reason(families, t, u)}'
    return f'{told(families, answer[1])} is the nearest family of {told(families, t)} and {told(families, u)}'

def reason(families, t, u):
    others = [x for x in dict.fromkeys((t, u)) if x not in families.depth]
    if others:
        return ' and '.join(f'{x} is no struct type' if x < len(families.types) else f'{x} is no type of the sheet' for x in others)
    roots = ' and '.join(told(families, families.chain(x)[-1]) for x in (t, u))
    return f'{told(families, t)} and {told(families, u)} have different roots, {roots}'
