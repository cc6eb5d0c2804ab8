"""The families of an accepted sheet with their sizes: in lines, and in rows for a spreadsheet."""
import csv, io
from .families import Families, aligned, branches, plural
from .files import Failed
from .module import SHEET, read

COLUMNS = ['sheet', 'type', 'name', 'size', 'parent type', 'parent name', 'root type', 'root name']
# what a spreadsheet takes for the beginning of a formula, and the apostrophe itself
FORMULA = "=+-@'\uff1d\uff0b\uff0d\uff20"

class Sizes:
    # words are what tools/native/load.c prints of families: kind and number of struct types, then type and size of each
    def __init__(self, sheet, words):
        self.families, self.count = Families(read(sheet, SHEET)), words[1]
        self.sizes = dict(zip(words[2::2], words[3::2]))
        # sizes are the loader's and names this script's: where they do not fit together there is no report
        if list(self.sizes) != self.families.structs or self.roots_total() != self.count:
            counted = f'{self.count} struct types and {len(self.sizes)} families'
            raise Failed(f'no report: the loader counts {counted}, which are not those of the sheet')

    def roots_total(self):
        return sum(self.sizes[root] for root in self.families.roots)

    def total(self):
        return sum(self.sizes.values())

    # numbers, then the name behind its branches, children below their parent
    def lines(self):
        yield f'{plural(self.count, "struct type")}, {plural(len(self.families.roots), "root")}' if self.count else 'no struct types'
        if self.count:
            yield aligned('type', 'size', 'family')
        for t, before in branches(self.families):
            yield aligned(t, self.sizes[t], before + self.families.name(t))

    # in the same order; parent and root have numbers too, as names may stand twice
    def rows(self, sheet):
        root = None
        for t, depth in self.families.walk:
            root = root if depth else t
            parent = self.families.parent(t) if depth else None
            yield [sheet, t, self.families.called(t), self.sizes[t], *self.named(parent), *self.named(root)]

    def named(self, t):
        return ['', ''] if t is None else [t, self.families.called(t)]

# texts that could be taken for a formula, or begin with what is not seen, get an apostrophe, which tells a spreadsheet that they are texts
def harmless(cell):
    if isinstance(cell, str) and cell and (cell[0] in FORMULA or cell[0].isspace() or not cell[0].isprintable()):
        return "'" + cell
    return cell

# RFC 4180: lines end with CR LF; cells with a comma, a quotation mark or a line end stand in quotation marks
def as_csv(rows):
    out = io.StringIO(newline='')
    csv.writer(out).writerows(list(map(harmless, row)) for row in rows)
    return out.getvalue()
