#!/usr/bin/env python3
"""Spells the definitions, facts and lemmas of this repository in snake case, where they had dashes.

Run once at the top of the repository, after its files were turned to the newer Rattle. A name is turned where a file of
specs/ or proofs/ declares it and no import takes it from the kit; names that the check makes keep their dashes.
"""
import os
import re

WORD = r"[^\s(){};,.\"`«»⌜⌝]+"
SIGNATURE = re.compile(r"^\s*(?:(?:abbrev|unfoldable|pub|data|record|ruleset)\s+)*(" + WORD + r")\s+:\s")
LOCAL = re.compile(r"\blet (" + WORD + r")\s+[:=]")
RECORD = re.compile(r"^\s*(?:(?:abbrev|unfoldable|pub)\s+)*(?:record|data|ruleset) (" + WORD + ")")
# a name that would fall together with one of the kit's, and a fact, which is spelled as a type
APART = {"bit-or": "bit_of_or", "None-below": "NoneBelow"}


def files(*ends):
    for root, _, names in os.walk("crates"):
        for name in sorted(names):
            if name.endswith(ends):
                yield os.path.join(root, name)


def declared():
    ours, made = set(), set()
    for path in files(".antt"):
        for line in open(path):
            found = SIGNATURE.match(line)
            if found and "goal." + found.group(1) in line:
                made.add(found.group(1))
            elif found:
                ours.add(found.group(1))
            ours.update(LOCAL.findall(line))
            found = RECORD.match(line)
            if found:
                ours.add(found.group(1))
            if "Rattle.std" in line and line.lstrip().startswith(("use ", "pub use ")):
                made.update(re.findall(WORD, line))
    return {name for name in ours - made if "-" in name}


def main():
    ours = declared()
    new = {name: APART.get(name, name.replace("-", "_")) for name in ours}
    one = re.compile(r"(?<![^\s(){};,.\"`«»⌜⌝λ←])(" + "|".join(sorted(map(re.escape, ours), key=len, reverse=True)) + r")(?![^\s(){};,.\"`«»⌜⌝])")

    def turned(found):
        before = found.string[max(0, found.start() - 2):found.start()]
        return found.group(1) if before in ("c.", "w.") else new[found.group(1)]

    for path in list(files(".antt", ".rt")):
        old = open(path).read()
        text = one.sub(turned, old)
        if text != old:
            open(path, "w").write(text)


main()
