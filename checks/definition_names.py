#!/usr/bin/env python3
"""Fails if a capitalised definition has its name in two crates, and its comment does not say why.

Definitions are those of specs/. Of the crates that have the name, the lowest in crates.txt says nothing. The comment of
each other definition, right above it, says which of them has the name too, and why it is the right name here:

    -- also in golf_model: the same, of a state that frees
    abbrev pub Follows : State → State → Type 0

The crate after `also in` is one of those that have the name.
"""

import re
import sys
from collections import defaultdict

from shared import CRATES, Words, crates, ended, text_of

DEFINITION = re.compile(r" *(?:(?:abbrev|unfoldable|opaque|private|record|data|pub) )+([A-Z]\w*)")
REASON = re.compile(r"\balso in `?(golf\w*)`?: *\S")


def definitions_of(path):
    """Yields the capitalised definitions of a file: the name, the number of its line, and its comment."""
    comment = []
    for number, line in enumerate(text_of(path).splitlines(), 1):
        if line.lstrip().startswith("--"):
            comment.append(line.lstrip(" -"))
            continue
        found = DEFINITION.match(line)
        if found:
            yield found.group(1), number, " ".join(comment)
        comment = []


def places():
    """Returns for each name the definitions that have it, from low to high: crate, place and comment."""
    found = defaultdict(list)
    for crate in crates():
        for path in sorted((CRATES / crate / "specs").rglob("*.antt")):
            for name, number, comment in definitions_of(path):
                found[name].append((crate, f"{path.relative_to(CRATES.parent)}:{number}", comment))
    return found


def faults_of(name, found):
    """Returns what is wrong with the definitions of a name, which stand from low to high."""
    lowest, faults = found[0][0], []
    for crate, place, comment in found:
        others = {it for it, _, _ in found if it != crate}
        named = set(REASON.findall(comment))
        if crate != lowest and not named & others:
            where = ", ".join(sorted(others))
            faults.append(f"{place}: {name} stands in {where} too, and its comment does not say why")
        faults += [f"{place}: {it} has no definition {name}" for it in sorted(named - others)]
    return faults


def main():
    Words(__doc__).parse_args()
    found = places()
    several = {name: of for name, of in found.items() if len({crate for crate, _, _ in of}) > 1}
    faults = [fault for name, of in sorted(several.items()) for fault in faults_of(name, of)]
    return ended(f"names of definitions: {len(found)} names, {len(several)} in several crates", faults)


if __name__ == "__main__":
    sys.exit(main())
