#!/usr/bin/env python3
"""Brings this repository's own definitions and lemmas to snake case: `byBytes` is `by_bytes`, `left-cells` is `left_cells`.

usage: tools/respell.py      at the top of the repository, once, after Rattle's port.py

It goes over the .antt and .rt files and the must-fail edits. Renamed are the words in lower camel case, wherever they stand, and the names with a
dash that a file of specs/ or one right below proofs/ declares (the files below proofs/F/ also cite names that Rattle makes, which stay). Where a lemma
or a field would fall together with a definition, it ends in _lem. Strings stay as they are.
"""
import collections
import glob
import re

TOKEN = re.compile(r"[^\s(){}\[\],;:.=λ→×⊎|«»\"`⌜⌝]+")
DECLARED = re.compile(r"^(?:(?:abbrev|unfoldable|pub|data|record|opaque|ruleset)\s+)*([^\s:(){}]+)\s*(?:\{[^}]*\}\s*|\([^)]*\)\s*)*:")
FIELD = re.compile(r"^\s+(?:pub\s+)?([^\s:(){}]+)\s*:")
CAMEL = re.compile(r"^[a-z][a-z0-9]*([A-Z][A-Za-z0-9]*)+'*$")
STRING = re.compile(r'b?"(?:[^"\\]|\\.)*"')

# These are the names of definitions, too: what had a dash is a lemma or a field.
APART = "body-of kind-of length-of start-of text-fits two-sided entries-of rows-stop is-less refused-from words-stop values-stop handed-on on-int on-bits comes-out of-result inner-list".split()
# Lemmas and fields whose name a definition takes now.
EARLIER = "is_true row_count row_words".split()


def snake(name):
    """A name, each of its parts in snake case."""
    def part(m):
        p = m.group(0)
        return re.sub(r"(?<!^)([A-Z])", lambda c: "_" + c.group(1).lower(), p) if CAMEL.match(p) else p
    return re.sub(r"[^-_]+", part, name)


def declared():
    """The names with a dash that are declared in specs/ and right below proofs/."""
    found = set()
    for f in sorted(glob.glob("crates/*/specs/*.antt") + glob.glob("crates/*/proofs/*.antt")):
        if f.endswith("/Lib.antt"):
            continue
        with open(f, encoding="utf-8") as text:
            for line in text:
                m = not line.startswith("--") and (DECLARED.match(line) or FIELD.match(line))
                if m and "-" in m.group(1):
                    found.add(m.group(1))
    return found


def main():
    dashed = declared()
    new = {d: snake(d).replace("-", "_") for d in dashed}
    new.update({d: d.replace("-", "_") + "_lem" for d in APART})
    new.update({e: e + "_lem" for e in EARLIER})
    taken = collections.defaultdict(set)

    def respelled(m):
        t = m.group(0)
        to = new.get(t) or snake(t)
        if to != t:
            taken[to].add(t)
        return to

    files = glob.glob("crates/*/specs/**/*.antt", recursive=True) + glob.glob("crates/*/proofs/**/*.antt", recursive=True)
    files += glob.glob("crates/*/src/**/*.rt", recursive=True) + glob.glob("crates/*/must-fail/*.edit")
    for f in sorted(files):
        with open(f, encoding="utf-8") as text:
            old = text.read()
        out, at = [], 0
        for s in STRING.finditer(old) if f.endswith(".rt") else []:
            out += [TOKEN.sub(respelled, old[at:s.start()]), s.group(0)]
            at = s.end()
        out.append(TOKEN.sub(respelled, old[at:]))
        if "".join(out) != old:
            with open(f, "w", encoding="utf-8") as text:
                text.write("".join(out))
    for to, names in sorted(taken.items()):
        if len(names) > 1:
            print("fall together:", to, *sorted(names))
    print(len(taken), "names respelled")


main()
