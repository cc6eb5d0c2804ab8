"""Families as a picture: boxes from left to right, in SVG or for graphviz. The same sheet gives the same bytes."""
from unicodedata import east_asian_width
from xml.sax.saxutils import escape
from .families import Families, counted

LINE, PAD, GAP, BETWEEN, MARGIN = 17, 10, 14, 46, 12
LONGEST, FIELDS = 44, 6
STYLE = """
  text { font: 12px system-ui, "Segoe UI", "Helvetica Neue", Arial, sans-serif; fill: #1d2b3a }
  .name { font-size: 14px; font-weight: 600 }
  .note { fill: #4d6073 }
  .none { fill: #7c8fa3 }
  rect { fill: #eaf1fa; stroke: #4a78ab }
  .root rect { fill: #d3e3f5; stroke-width: 2 }
  .apart rect { fill: #fbeadb; stroke: #c0722f }
  path { fill: none; stroke: #7c8fa3; stroke-width: 1.5 }
"""

def short(text):
    return text if len(text) <= LONGEST else text[:LONGEST - 1] + '…'

# no font is known here, so letters are taken as rather wide
def width(text, size):
    return sum(size if east_asian_width(c) in 'WF' else 0.61 * size for c in text)

class Box:
    def __init__(self, families, t, remark):
        fields = families.own(t)
        sign = '+ ' if families.types[t].parent else ''
        notes = [sign + short(field) for field in fields[:FIELDS if len(fields) <= FIELDS else FIELDS - 1]]
        notes += [f'and {len(fields) - len(notes)} more'] if len(fields) > len(notes) else []
        self.name, self.lines = short(families.name(t)), [('note', f'type {t}, {counted(families, t)}')] + [('', note) for note in notes]
        self.lines += [('note', remark)] if remark else []
        self.kind = 'apart' if t not in families.depth else 'root' if not families.types[t].parent else ''
        self.width = 2 * PAD + max([width(self.name, 14.5)] + [width(text, 12) for _, text in self.lines])
        self.height = 2 * PAD + LINE * (1 + len(self.lines))
        self.x = self.y = 0

    def svg(self):
        kind = f' class="{self.kind}"' if self.kind else ''
        x, y = self.x + PAD, self.y + PAD + 13
        out = [f'<g{kind}><rect x="{self.x:g}" y="{self.y:g}" width="{self.width:.1f}" height="{self.height:g}" rx="5"/>']
        out.append(f'<text class="name" x="{x:g}" y="{y:g}">{escape(self.name)}</text>')
        for k, (kind, text) in enumerate(self.lines, 1):
            kind = f' class="{kind}"' if kind else ''
            out.append(f'<text{kind} x="{x:g}" y="{y + LINE * k:g}">{escape(text)}</text>')
        return ''.join(out) + '</g>'

class Picture:
    def __init__(self, module):
        self.families = Families(module)
        self.apart = self.families.apart()
        self.boxes = {t: Box(self.families, t, self.families.remark(t)) for t, _ in self.families.walk}
        self.boxes.update((t, Box(self.families, t, reason)) for t, reason in self.apart)
        self.place(self.columns(), self.spaces())

    # where the boxes of each depth begin
    def columns(self):
        widths = []
        for t, depth in self.families.walk:
            widths += [0] * (depth + 1 - len(widths))
            widths[depth] = max(widths[depth], self.boxes[t].width)
        out = [MARGIN]
        for w in widths:
            out.append(round(out[-1] + w + BETWEEN))
        return out

    # the height that a type takes with all below it; children stand behind their parent in the walk
    def spaces(self):
        out = {}
        for t, _ in reversed(self.families.walk):
            below = [out[child] for child in self.families.children[t]]
            out[t] = max(self.boxes[t].height, sum(below) + GAP * (len(below) - 1))
        return out

    def place(self, columns, spaces):
        tops, y = {}, MARGIN
        for root in self.families.roots:
            tops[root] = y
            y += spaces[root] + 2 * GAP
        for t, depth in self.families.walk:
            box = self.boxes[t]
            box.x, box.y = columns[depth], round(tops[t] + (spaces[t] - box.height) / 2, 1)
            children = self.families.children[t]
            top = tops[t] + (spaces[t] - sum(spaces[c] for c in children) - GAP * (len(children) - 1)) / 2
            for child in children:
                tops[child] = top
                top += spaces[child] + GAP
        for t, _ in self.apart:
            self.boxes[t].x, self.boxes[t].y = MARGIN, round(y, 1)
            y += self.boxes[t].height + GAP

    def line(self, t):
        box, parent = self.boxes[t], self.boxes[self.families.parent(t)]
        start, end = parent.x + parent.width, box.x
        middle = end - BETWEEN / 2
        return f'<path d="M{start:.1f} {parent.y + parent.height / 2:g}H{middle:g}V{box.y + box.height / 2:g}H{end:g}"/>'

    def svg(self):
        boxes = list(self.boxes.values())
        if not boxes:
            return f'<svg xmlns="http://www.w3.org/2000/svg" width="140" height="40"><style>{STYLE}</style><text class="none" x="12" y="25">no struct types</text></svg>\n'
        wide = max(b.x + b.width for b in boxes) + MARGIN
        high = max(b.y + b.height for b in boxes) + MARGIN
        lines = [self.line(t) for t, depth in self.families.walk if depth]
        head = f'<svg xmlns="http://www.w3.org/2000/svg" width="{wide:.0f}" height="{high:.0f}" viewBox="0 0 {wide:.0f} {high:.0f}" role="img">'
        return '\n'.join([head, '<title>Families</title>', f'<style>{STYLE}</style>', *lines, *[b.svg() for b in boxes], '</svg>', ''])

def svg(module):
    return Picture(module).svg()

# a text of graphviz; a backslash would begin an escape
def label(text):
    return text.replace('\\', '\\\\').replace('"', '\\"')

def node(t, lines, colours=''):
    return f'  t{t} [{colours}label="' + '\\n'.join(map(label, lines)) + '"]'

def dot(module):
    families = Families(module)
    out = ['digraph families {', '  rankdir=LR', '  node [shape=box, style="rounded,filled", fillcolor="#eaf1fa", color="#4a78ab", fontname="Helvetica"]',
           '  edge [color="#7c8fa3", arrowhead=none]']
    for t, depth in families.walk:
        remark = families.remark(t)
        lines = [short(families.name(t)), f'type {t}, {counted(families, t)}', *([remark] if remark else [])]
        out.append(node(t, lines))
        out += [f'  t{families.parent(t)} -> t{t}'] if depth else []
    for t, reason in families.apart():
        lines = [short(families.name(t)), f'type {t}, {counted(families, t)}', reason]
        out.append(node(t, lines, 'fillcolor="#fbeadb", color="#c0722f", '))
    return '\n'.join(out + ['}', ''])
