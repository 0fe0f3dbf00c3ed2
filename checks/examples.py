#!/usr/bin/env python3
"""Fails if a test has a copy of a file of examples/ that is not the same, byte for byte.

A copy in crates/golf_tests_program is a text with a comment `// examples/NAME` on a line of its own right before it.
Rattle has no `include_str!`, and refuses a tab in a source. So each line of a copy ends in `\\n\\`, and a tab is `\\t`.
"""

import re
import sys

from shared import CRATES, ROOT, Words, ended, text_of

NAMED = re.compile(r"^ *// (examples/\S+)$", re.M)
COPY = re.compile(r'^ *// (examples/\S+)\n *(?:pub )?(?:let|const) [^=]*= "((?:\\.|[^"\\])*)";', re.M | re.S)
ESCAPES = {"n": "\n", "t": "\t", "\\": "\\", '"': '"'}


def decoded(literal):
    """Returns what a literal stands for: a backslash at the end of a line takes the blanks of the next one away."""
    joined = re.sub(r"\\\n\s*", "", literal)
    return re.sub(r"\\(.)", lambda found: ESCAPES[found.group(1)], joined)


def faults_of(name, copy):
    """Returns what is wrong with a copy of a file."""
    file = ROOT / name
    if not file.is_file():
        return [f"no file {name}"]
    return [] if text_of(file) == copy else [f"another text than {name}"]


def main():
    Words(__doc__).parse_args()
    count, bad = 0, []
    for source in sorted((CRATES / "golf_tests_program" / "src").rglob("*.rt")):
        text = text_of(source)
        copies = COPY.findall(text)
        lost = len(NAMED.findall(text)) - len(copies)
        faults = [fault for name, copy in copies for fault in faults_of(name, decoded(copy))]
        faults += [f"{lost} comments without a text after them"] if lost else []
        bad += [f"{source.relative_to(ROOT)}: {fault}" for fault in faults]
        count += len(copies)
    return ended(f"{count} copies of examples", bad if count else ["no copy of an example is found"])


if __name__ == "__main__":
    sys.exit(main())
