#!/usr/bin/env python3
"""Counts the words of README.md, CONTRIBUTING.md, docs/*.md and the README of each folder, and lists long sentences.

A template `NAME.in.md` does not count beside its page. A word is what is between blanks and has a letter or a digit, so
the lines of tables are none. A sentence or a cell may have 25 words. Each one over 25 is listed. The status is 1 if one
has over 40, or if a page has one of the phrases of PHRASES, each of which has a plain word in its place. Code does not
count there: neither blocks (indented by four or fenced) nor quoted code nor HTML comments.
"""

import re
import sys

from shared import ROOT, Words, text_of

MOST = 40
LISTED = 25
TOP = ("README", "CONTRIBUTING", "CHANGELOG", "SECURITY")
FOLDERS = ("crates", "checks", "tests", "bench", "wrong", "tools")
PHRASES = {
    r"but for": "except for",
    r"in one go": "in one batch",
    r"stands? on": "depends on",
    r"stands? (?:above|below)": "is above or below",
    r"exactly (?:if|where)": "exactly when",
    r"whoever": "the name of the thing",
    r"some \d+": "about",
    r"nothing can come to": "unreachable",
    r"the way of (?:a|the) file's bytes": "from source bytes to exit status",
    r"words of the house": "glossary",
}
CODE = "\x00"
ITEM = re.compile(r"(?:[-*]|\d+\.) ")
END = re.compile(rf"(?<=[.!?])[\"')]*\s+(?=[A-Z0-9(\"'*{CODE}])")


def pages():
    """Returns the pages, in the order in which they are told."""
    named = [ROOT / f"{name}.md" for name in TOP] + [ROOT / folder / "README.md" for folder in FOLDERS]
    named += (page for page in sorted((ROOT / "docs").glob("*.md")) if not page.name.endswith(".in.md"))
    return [page for page in named if page.is_file()]


class Blocks:
    """The prose of a page as (line, kind, text): kind is `prose` or `cell`."""

    def __init__(self, text):
        self.found, self.open_lines, self.begun = [], [], 0
        self.fenced, self.blank, self.in_item = False, True, False
        text = re.sub(r"<!--.*?-->", lambda found: "\n" * found.group().count("\n"), text, flags=re.S)
        for number, line in enumerate(text.splitlines(), 1):
            self.take(number, line, line.strip())
        self.close()

    def close(self):
        """Ends the block of prose that is open."""
        if self.open_lines:
            self.found.append((self.begun, "prose", " ".join(self.open_lines)))
            self.open_lines = []

    def is_code(self, line, bare):
        """Whether a line belongs to a block of code."""
        if bare.startswith("```"):
            self.close()
            self.fenced = not self.fenced
            return True
        indent = "      " if self.in_item else "    "
        return self.fenced or self.blank and line.startswith(indent) and not (self.in_item and ITEM.match(bare))

    def take(self, number, line, bare):
        """Takes the next line."""
        if not bare and not self.fenced:
            self.close()
            self.blank = True
        elif self.is_code(line, bare):
            # A block of code that is indented goes on after its first line.
            self.blank = self.blank and not self.fenced and not bare.startswith("```")
        elif bare.startswith("|"):
            self.close()
            cells = re.split(r"(?<!\\)\|", bare.strip("|"))
            self.found += [(number, "cell", cell.strip()) for cell in cells if not re.fullmatch(r"[\s:-]*", cell)]
            self.blank = False
        else:
            self.take_prose(number, line, bare)
            self.blank = False

    def take_prose(self, number, line, bare):
        """Takes a line of prose: an item of a list and a heading begin a block, and a heading ends one."""
        if ITEM.match(bare) or bare.startswith("#"):
            self.close()
        if not line.startswith(" "):
            self.in_item = bool(ITEM.match(bare))
        if not self.open_lines:
            self.begun = number
        self.open_lines.append(bare)
        if bare.startswith("#"):
            self.close()


def without_code(text):
    """Returns the text with a sign in place of each piece of quoted code, and without the marks of Markdown."""
    text = re.sub(r"``.*?``|`[^`]*`", CODE, text)
    text = re.sub(r"\]\([^)]*\)", "]", text)
    return re.sub(r"^(?:#+|[-*]|\d+\.) |\*\*", "", text)


def count(text):
    """Returns how many words the text has: a piece of code is none."""
    return sum(1 for word in text.split() if re.search(r"[A-Za-z0-9]", word.replace(CODE, "")))


def looked_at(page, most):
    """Returns how many words of prose a page has, what has more words than this, and what is wrong with the page."""
    prose, long, faults = 0, [], []
    for line, kind, block in Blocks(text_of(page)).found:
        plain, place = without_code(block), f"{page.relative_to(ROOT)}:{line}"
        prose += count(plain)
        for part in [plain] if kind == "cell" else END.split(plain):
            words, of = count(part), "cell" if kind == "cell" else "sentence"
            said = f"{place}: {words} words in a {of}: {part.replace(CODE, '`..`')[:70]}"
            long += [said] if words > most else []
            faults += [said] if words > MOST else []
        for phrase, instead in PHRASES.items():
            for found in re.finditer(rf"(?<!\w){phrase}(?!\w)", plain, re.I):
                faults.append(f"{place}: \"{found.group()}\" (write: {instead})")
    return prose, long, faults


def main():
    options = Words(__doc__)
    options.add_argument("--long", type=int, default=LISTED, metavar="N", help="list what has over N words")
    most = options.parse_args().long
    sums, long, faults = [0, 0], [], []
    for page in pages():
        prose, more_long, more_faults = looked_at(page, most)
        words = sum(1 for word in text_of(page).split() if re.search(r"[A-Za-z0-9]", word))
        print(f"{words:7} words, {prose:6} without code: {page.relative_to(ROOT)}")
        sums = [sums[0] + words, sums[1] + prose]
        long, faults = long + more_long, faults + more_faults
    for said in long:
        print(said)
    for said in faults:
        print(f"fault: {said}")
    print(f"{sums[0]:7} words, {sums[1]:6} without code: all pages; "
          f"{len(long)} over {most} words, {len(faults)} faults")
    return 1 if faults else 0


if __name__ == "__main__":
    sys.exit(main())
