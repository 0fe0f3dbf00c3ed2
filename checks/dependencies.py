#!/usr/bin/env python3
"""Fails if crates.txt does not list for a crate exactly the libraries that its files name.

A file names a library by the first word of a path: `NAME::` in src/, `Rattle.NAME` in src/, specs/ and proofs/.
Comments do not count. A name too many is a fault, and so is one that is lacking. The crates stand from low to high:
in the file each one after those that it names, and in a line the names in the order of the file. Libraries of the
toolchain may stand anywhere in a line. `--write` mends the lines; if two crates stand in the wrong order, that is
left to a person.
"""

import re
import sys

from shared import CRATES, ROOT, Words, crates, ended, text_of

PATHS = re.compile(r"\bRattle[.·]([a-z]\w*)|\b([a-z]\w*)::|\b(?:use|extern crate)\s+([a-z]\w*)")
PARTS = (("src", "rt"), ("specs", "antt"), ("proofs", "antt"))


def code_of(path):
    """Returns the text of a file without its comments."""
    text = text_of(path)
    if path.suffix == ".rt":
        return re.sub(r"//.*", "", text)
    return re.sub(r"^\s*--.*|\s--\s.*", "", re.sub(r"\{-.*?-\}", "", text, flags=re.S), flags=re.M)


def named_by(crate):
    """Returns the words with which a path begins in the files of a crate."""
    files = [path for part, suffix in PARTS for path in (CRATES / crate / part).rglob(f"*.{suffix}")]
    return {next(filter(None, found.groups())) for path in files for found in PATHS.finditer(code_of(path))}


def wanted_line(name, known, libraries):
    """Returns the line of a crate as it should be: the names in the order of the file, and then the toolchain's."""
    named = named_by(name) - {name}
    toolchain = [it for it in known[name].uses if it in named and it not in known]
    toolchain += sorted((named & libraries) - set(toolchain) - set(known))
    ours = [it for it in known if it in named]
    return " ".join([known[name].line.partition(":")[0] + ":", *ours, *toolchain])


def faults_of(name, known, libraries):
    """Returns what is wrong with the line of a crate."""
    uses, order, named = known[name].uses, list(known), named_by(name) - {name}
    faults = [f"{name}: one too many: {it}" for it in uses if it not in named]
    faults += [f"{name}: lacks {it}" for it in sorted(named & libraries) if it not in uses]
    faults += [f"{name}: twice: {it}" for it in sorted(set(uses)) if uses.count(it) > 1]
    ours = [it for it in uses if it in known]
    faults += [f"{name}: {low} stands after {high}, and is lower in the file" for high, low in zip(ours, ours[1:])
               if order.index(low) < order.index(high)]
    above = [it for it in ours if order.index(it) > order.index(name)]
    return faults + [f"{name}: it stands before {it}, which it names" for it in above]


def main():
    options = Words(__doc__)
    options.add_argument("--write", action="store_true", help="write crates.txt anew")
    write = options.parse_args().write
    known = crates()
    libraries = {it for crate in known.values() for it in crate.uses} | set(known)
    if write:
        lines = {crate.line: wanted_line(name, known, libraries) for name, crate in known.items()}
        text = text_of(ROOT / "crates.txt").splitlines()
        (ROOT / "crates.txt").write_text("".join(lines.get(line, line) + "\n" for line in text), encoding="utf-8")
        known = crates()
    faults = [fault for name in known for fault in faults_of(name, known, libraries)]
    folders = {path.name for path in CRATES.iterdir() if path.is_dir()}
    faults += [f"{name}: crates/ has no such folder" for name in known if name not in folders]
    faults += [f"{name}: crates.txt has no such line" for name in sorted(folders - set(known))]
    return ended(f"dependencies: {sum(len(crate.uses) for crate in known.values())} of {len(known)} crates", faults)


if __name__ == "__main__":
    sys.exit(main())
