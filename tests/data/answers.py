"""The six numbers (docs/FORMAT.md, "The kinds"), and cases: a name, the parts of a sheet, and the numbers that it must get."""
from sheets import parts, sheet

HOLDS, BROKEN, UNRESOLVED = [0], [1], [2, 0]
# kind 3 by its words
TYPE, FUNCTION, STRING, CONSTANT, REGISTER, IMPORT, GLOBAL = ([3, word] for word in range(1, 8))
TARGET, TABLE_TARGET, TABLE, NAME, TYPE_REF, CAPTURE, SHAPE = ([3, word] for word in range(8, 15))
SIGNATURE, PARAMS, EMPTY, FALLS, ARITY, CAPTURES, PROMOTE = [4], [5], [6], [7], [8, 0], [9], [10]
STRUCT_KIND, ARRAY_KIND, MAP_KIND, CELL_KIND = ([11, word] for word in range(1, 5))
MODIFIER, HANDLER, CATCH, TAIL_CALL, PARENT, DEEP, BAD_CONSTANT = [12], [13], [14], [15], [16], [17], [18]
HOOK, START, PARAM_LIST, CALL_SHAPE = [19, 0], [20], [21], [22]
EXPORT_NAME, EXPORTED = [27, 0], [28, 0]

# the refusal in that function, at that position if there is one
def at(expected, function, position=-1):
    return (expected + [0] * 3)[:4] + [function + 1, position + 1]

def line(expected):
    return ' '.join(map(str, expected + [0] * (6 - len(expected))))

# a list of cases, and what adds one
def collection():
    cases = []
    def case(name, expected, edition=1, **p):
        cases.append((name, sheet(parts(**p), edition=edition), line(expected)))
    return cases, case
