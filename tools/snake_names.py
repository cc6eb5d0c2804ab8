#!/usr/bin/env python3
"""Spells this repository's own definitions and lemmas in snake case, as `isStruct` to `is_struct` and `same-eq` to `same_eq`.

usage: snake_names.py [--check] ROOT

It ran once, over what the kit's port.py made of the sources: docs/PORT.md says when. A name turns if a text of specs/ or of proofs/, but for the
proofs of one function each, declares it. It turns as a whole word: in .antt files, in .rt files outside of strings, in must-fail edits, and in the
code spans of comments. A lemma that would meet a definition or a function gets `_lem` behind its name. --check writes nothing.
"""

import collections
import os
import re
import sys

WORD = re.compile(r"[^\s(){}.;,@\"«»\[\]`:]+")
SUB = "₀₁₂₃₄₅₆₇₈₉"
TURNS = re.compile(rf"^[a-z][A-Za-z0-9{SUB}]*(?:[-_][A-Za-z0-9{SUB}]+)*'*$")
LEADS = "pub|abbrev|unfoldable|opaque|private|where|let|record|in|data|mutual|constructor|infixl|infixr|infix"
DECLARED = re.compile(rf"^\s*(?:(?:{LEADS})\s+|\d+\s+|[|]\s*|\{{\s*)*([^\s(){{}}.;,@\"«»\[\]]+)\s*(?=[:;]\s|\{{|=\s)")
RULESET = re.compile(r"^\s*(?:pub\s+)?ruleset\s+(\S+)")
INLINE = re.compile(r"(?:\{|;|\blet)\s*([a-z][^\s(){}.;,@\"«»\[\]:]*)\s*[:=]\s")
# Names before one colon: constructors of a line, and variables.
TOGETHER = re.compile(r"(?:^\s*|[({]\s*)((?:[^\s(){}.;,@\"«»\[\]:]+ )+)(?=: )")
FUNCTION_PROOF = re.compile(r"/proofs/(.*/)?[^/]+/(Proof|Answers|Invariants)\.antt$")
# Lemmas that port.py gave the name that a definition gets here, and the files that have them.
MET = {
    "is_within": ("descends/specs/DescendsLaws.antt", "query_nearest/proofs/ScanSteps.antt"),
    "in_list": ("table_spans/proofs/WalkSteps.antt",),
    "out_of_range": ("calls/specs/ExportCallLaws.antt",),
}


def snake(name):
    words = re.sub(r"(?<=[a-z0-9])([A-Z]+)(?=[A-Z][a-z])", lambda m: "_" + m[1].lower(), name)
    words = re.sub(r"([A-Z])", lambda m: "_" + m[1].lower(), words)
    return re.sub(r"_+", "_", words.replace("-", "_"))


def files(root, *ends):
    for folder, dirs, names in os.walk(os.path.join(root, "crates")):
        dirs[:] = sorted(d for d in dirs if d != "out")
        for n in sorted(names):
            if n.endswith(ends):
                yield os.path.join(folder, n)


def read(path):
    with open(path, encoding="utf-8") as f:
        return f.read()


def bare(path, text):
    """The text with no comments."""
    return re.sub(r"//[^\n]*", "", text) if path.endswith(".rt") else re.sub(r"(?m)(^|\s)--.*$", r"\1", text)


def declared(root):
    found = set()
    for p in files(root, ".antt"):
        if FUNCTION_PROOF.search(p):
            continue
        for line in bare(p, read(p)).split("\n"):
            for m in (DECLARED.match(line), RULESET.match(line)):
                if m:
                    found.add(m[1])
            found |= set(INLINE.findall(line))
            for names in TOGETHER.findall(line):
                found |= set(names.split())
    found |= {"wsAlso", "roomAlso", "longAlso", "faultlessAlso"}
    return {w for w in found if TURNS.match(w) and snake(w) != w}


def table(root):
    names = declared(root)
    where = collections.defaultdict(set)
    for p in files(root, ".antt", ".rt"):
        for w in set(WORD.findall(bare(p, read(p)))):
            where[w].add(p)
    turned = {}
    by_target = collections.defaultdict(list)
    for w in sorted(names):
        by_target[snake(w)].append(w)
    for target, words in by_target.items():
        # definitions are in camel case, lemmas have dashes
        first = [w for w in words if "-" not in w] or ([] if any(where[target] & where[w] for w in words) else words[:1])
        for w in words:
            turned[w] = target if w in first[:1] else target + "_lem"
        if len(first) > 1 or sum(it == target + "_lem" for it in (turned[w] for w in words)) > 1:
            print("meet:", target, words)
    return turned


# An item of a `use` of the kit's library, and where the kit's modules lie.
USE = re.compile(r"(?m)^\s*(?:ghost )?(?:pub )?use ([^\s;{]+?)\.\{([^{}]*)\}")
KIT = re.compile(r"(?:Rattle\.(?:std|core|io|os|libc|std_\w+)\.|mathlib\.|native\.|borrow\.|Prim\.|lib\.)")


def lent(text):
    """The names that a text takes from the kit's library: they stay there."""
    items = [it.split() for m in USE.finditer(text) if KIT.match(m[1] + ".") for it in m[2].split(",")]
    return {word for it in items for word in it[:1] + it[2:]}


def turn_words(text, turned):
    return WORD.sub(lambda m: turned.get(m[0], m[0]), text)


def turn_comment(text, turned):
    text = re.sub(r"`[^`\n]*`", lambda m: turn_words(m[0], turned), text)
    return WORD.sub(lambda m: turned[m[0]] if m[0] in turned and "-" not in m[0] else m[0], text)


PARTS = {
    ".rt": re.compile(r'("(?:[^"\\\n]|\\.)*")|(//[^\n]*)'),
    ".antt": re.compile(r'("(?:[^"\\\n]|\\.)*")|((?:(?<=\s)|^)--[^\n]*)', re.M),
}


def turn(path, text, turned):
    if path.endswith(".edit"):
        return "\n".join(turn_words(l, turned) if re.match(r"(old|new):", l) else turn_comment(l, turned) for l in text.split("\n"))
    out, at = [], 0
    for m in PARTS[os.path.splitext(path)[1]].finditer(text):
        out += [turn_words(text[at : m.start()], turned), m[1] or turn_comment(m[2], turned)]
        at = m.end()
    return "".join(out) + turn_words(text[at:], turned)


def main(argv):
    root, check = argv[-1], "--check" in argv
    turned, n = table(root), 0
    for p in files(root, ".antt", ".rt", ".edit"):
        text = read(p)
        short = os.path.relpath(p, os.path.join(root, "crates"))
        new = turn_words(text, {w: w + "_lem" for w, ps in MET.items() if short in ps and w in turned.values()})
        stay = lent(text)
        new = turn(p, new, {w: t for w, t in turned.items() if w not in stay})
        if new != text:
            n += 1
            if not check:
                with open(p, "w", encoding="utf-8") as f:
                    f.write(new)
    print(f"{len(turned)} names, {n} files")


if __name__ == "__main__":
    main(sys.argv[1:])
