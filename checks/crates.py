#!/usr/bin/env python3
"""Fails if crates/README.md is not what crates.txt and the heads of the crates say.

The page has a table for each heading of crates.txt, with a row for each crate: its name, and the first sentence of its
`src/lib.rt` or `src/main.rt`. If that has over 25 words, it ends at its colon. `--write` writes the page anew.
"""

import itertools
import re
import sys

from shared import CRATES, Words, crates, ended, text_of

PAGE = CRATES / "README.md"
MOST_WORDS = 25
TOP = """# The crates

A row for each crate, from low to high, by the headings of `crates.txt`. The words are the first sentence of its
`src/lib.rt` or `src/main.rt`. `docs/ARCHITECTURE.md` shows how they fit together.
`checks/crates.py --write` makes this page, and `.ci/run` fails if it is stale.
"""


def sentence_of(crate):
    """Returns the first sentence of the head of a crate, or nothing if there is none."""
    for name in ("lib.rt", "main.rt"):
        path = CRATES / crate / "src" / name
        if path.is_file():
            lines = text_of(path).splitlines()
            head = [line[3:].strip() for line in itertools.takewhile(lambda line: re.match(r"//! *\S", line), lines)]
            sentence = re.split(r"(?<=\.) ", " ".join(head))[0]
            return sentence if len(sentence.split()) <= MOST_WORDS else sentence.partition(":")[0] + "."
    return ""


def page():
    """Returns the page as it should be, and the crates that have no head."""
    known, text, lacking = crates(), TOP, []
    for layer, names in itertools.groupby(known, key=lambda name: known[name].layer):
        title, _, more = layer.partition(": ")
        text += f"\n## {title}\n\n" + (f"{more[0].upper()}{more[1:]}.\n\n" if more else "")
        text += "| crate | what it has |\n|---|---|\n"
        for name in names:
            sentence = sentence_of(name)
            lacking += [] if sentence else [name]
            text += f"| [`{name}`]({name}) | {sentence.replace('|', chr(92) + '|')} |\n"
    return text, lacking


def main():
    options = Words(__doc__)
    options.add_argument("--write", action="store_true", help="write crates/README.md anew")
    write = options.parse_args().write
    text, lacking = page()
    if write:
        PAGE.write_text(text, encoding="utf-8")
    stale = not PAGE.is_file() or text_of(PAGE) != text
    faults = [f"{name}: src/lib.rt or src/main.rt has no sentence at its head" for name in lacking]
    faults += ["crates/README.md is stale: python3 checks/crates.py --write"] if stale else []
    return ended(f"crates/README.md: {len(crates())} crates", faults)


if __name__ == "__main__":
    sys.exit(main())
