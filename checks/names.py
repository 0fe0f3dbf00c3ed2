#!/usr/bin/env python3
"""Prints the files of crates/ that name a thing or each variant of an enum, crate by crate in the order of crates.txt.

    python3 checks/names.py Length             the files that name the word: where a neighbour of a new thing stands
    python3 checks/names.py BuiltIn            the files that name each variant of the enum, or nearly each: N of M
    python3 checks/names.py BuiltIn --some     also the files that name only some variants, each with those variants

With several words a file is printed if it names all of them; with several enums, if it does so for one of them. A file
that names nine variants in ten counts as naming nearly each. Code, specifications and proofs are looked at.

A file that names only some variants has a case for them: the spelling of a name, an example, a lemma, or a rule with a
case for all others. A new variant may need a line there, and its neighbour may not be among them. So if a word is a
variant, the last line but one counts the files that name other variants of its enum alone. `--some` lists them. The
status is 1 if no file is found.
"""

import re
import sys

from shared import CRATES, Words, crates, text_of

SHARE = 0.9
MOST_TOLD = 4


def files_of(crate):
    """Returns the code, specifications and proofs of a crate, with their text."""
    folder = CRATES / crate
    paths = [*folder.glob("src/**/*.rt"), *folder.glob("specs/**/*.antt"), *folder.glob("proofs/**/*.antt")]
    return [(path, text_of(path)) for path in sorted(paths)]


def all_enums():
    """Returns the variants of each public enum of the crates, by its name."""
    form, found = re.compile(r"^pub enum (\w+)\b[^{]*\{(.*?)^\}", re.M | re.S), {}
    for path in sorted(CRATES.glob("*/src/**/*.rt")):
        for name, body in form.findall(text_of(path)):
            found.setdefault(name, re.findall(r"^    ([A-Z]\w*)", body, re.M))
    return found


def told_of(present, enums):
    """Returns for each enum of which these words have nearly each variant: how many of how many."""
    counts = {name: sum(variant in present for variant in variants) for name, variants in enums.items()}
    return [f"{count} of {len(enums[name])} of {name}" for name, count in counts.items()
            if count >= SHARE * len(enums[name])]


def some_of(text, enums):
    """Returns for each enum of which the text has a variant behind the name of the enum: which ones."""
    told = []
    for name, variants in enums.items():
        short = [name, *re.findall(rf"\.{name}\.TheVariants as (\w+)", text)]
        named = set(re.findall(rf"\b(?:{'|'.join(short)})(?:::|\.)(\w+)", text))
        found = [variant for variant in variants if variant in named]
        more = "" if len(found) <= MOST_TOLD else f" and {len(found) - MOST_TOLD} more"
        told += [f"{', '.join(found[:MOST_TOLD])}{more} of {name}"] if found else []
    return told


def main():
    options = Words(__doc__)
    options.add_argument("words", nargs="+", metavar="WORD", help="a word, or the name of an enum")
    options.add_argument("--some", action="store_true", help="also list files that name only some variants")
    given, known = options.parse_args(), all_enums()
    enums = {name: known[name] for name in given.words if name in known}
    words = {name for name in given.words if name not in enums}
    kin = enums or {name: variants for name, variants in known.items() if words & set(variants)}
    count, others = 0, []
    for path, text in (found for crate in crates() for found in files_of(crate)):
        present = set(re.findall(r"\w+", text))
        told = told_of(present, enums)
        if (told or not enums) and words <= present:
            count += 1
            print(f"{path.relative_to(CRATES)}" + (f": {', '.join(told)}" if told else ""))
        elif some := some_of(text, kin):
            others.append(f"{path.relative_to(CRATES)}: {'; '.join(some)}")
    if others:
        what = "some" if enums else "other"
        print(f"{len(others)} more files name only {what} variants of {', '.join(kin)}"
              + (":" if given.some else ": --some lists them"))
    for line in others if given.some else ():
        print(line)
    print(f"{count} files")
    return 0 if count else 1


if __name__ == "__main__":
    sys.exit(main())
