#!/usr/bin/env python3
"""Fails if docs/rules.txt, docs/PROVED.md or docs/GLOSSARY.md names a file, a crate or a word that is gone.

The head of docs/rules.txt says what its lines are; docs/RULES.md is made of them by `--write`, and must not be stale.
A rule has each of its cells, and its number is one more than the last. A name is `PATH: WORD, WORD` or `PATH` alone:
the file must be there, and must have each word as a whole word. An entry of docs/PROVED.md begins with its crates, and
each word that stands there in parentheses must stand in what they export: `NAME`, or `TYPE::NAME`, in their src/ or
specs/. Each crate that the programs depend on has an entry. So must each word of the glossary that stands with one file
or crate in parentheses. The tests that the files of tests/runs name must be there too.
"""

import re
import sys
import textwrap

from shared import CRATES, PROGRAMS, ROOT, Words, below, give_up, text_of
from shared import crates as crates_of

SOURCE = ROOT / "docs" / "rules.txt"
PAGE = ROOT / "docs" / "RULES.md"
PROVED = ROOT / "docs" / "PROVED.md"
GLOSSARY = ROOT / "docs" / "GLOSSARY.md"
RUNS = ROOT / "tests" / "runs"
# The cells of each kind of block. Those after `from` have names.
CELLS = {
    "rule": ("from", "definition", "code", "proof", "wrong body", "test"),
    "body": ("test",),
    "example": ("test",),
}
TOP = """# The rules

A table for each rule of the language or of the collector: where to find its parts. A name is a file and, after the
colon, words in it. `checks/rules.py --write` makes this page of `docs/rules.txt`. Without the word it fails if the page
is stale, or if a file or a word is gone.

| row | what it has |
|---|---|
| from | sections of the Go specification (https://go.dev/ref/spec), or *profile* for this runtime's own rules |
| definition | the words in `specs/` that state the rule |
| code | the functions that keep it |
| proof | laws (functions without a body), or the word or the name of the clause of a code function |
| wrong body | an edit that the check refuses: `must-fail/` by the gate, `wrong/` by `wrong/try.py`; or none |
| test | tests that show it; with blanks between its words, a row of a table of tests |

Two clauses gather many rules. `check` (`crates/golf_check/src/files.rt`) finds exactly the first broken rule of names
and types. `turn` (`crates/golf_machine/src/turns.rt`) has all rules about turns. Each clause is proved by the check
in any case. A wrong body is an edit of code, or of a definition that a law is about.
"""


# ---- the rules


class Block:
    """A rule, a body that only tests refuse, or an example: its kind, the number of a rule, its text and its cells."""

    def __init__(self, head, text):
        self.kind, _, self.number = head.partition(" ")
        self.text, self.cells = text, []

    def name(self):
        """Returns what a fault calls it."""
        return f"rule {self.number}" if self.number else f"{self.kind}: {self.text[:50]}"

    def names(self):
        """Returns the names of files and words in its cells."""
        return [text for cell, text in self.cells if cell != "from" and text != "none"]

    def faults(self):
        """Returns what is wrong with its form, and what its names lack."""
        wanted = CELLS[self.kind]
        order = list(dict.fromkeys(cell for cell, _ in self.cells))
        faults = [] if order == list(wanted) else [f"the cells are {', '.join(order)} and not {', '.join(wanted)}"]
        faults += [f"{cell} is empty" for cell, text in self.cells if not text]
        return faults + [fault for name in self.names() for fault in faults_of(name)]

    def table(self):
        """Returns its lines of the page. The name of a cell stands once where several lines have it."""
        rows, last = [f"| {self.number} | {cell_of(self.text)} |", "|---|---|"], None
        for cell, text in self.cells:
            shown = text if cell == "from" or text == "none" else f"`{text}`"
            rows.append(f"| {'' if cell == last else cell} | {cell_of(shown)} |")
            last = cell
        return rows


def cell_of(text):
    """Returns a text as a cell of a table."""
    return text.replace("|", "\\|")


def read():
    """Returns the sections of the source: (title, paragraphs, blocks)."""
    sections = []
    for number, line in enumerate(text_of(SOURCE).splitlines(), 1):
        head, colon, text = (part.strip() for part in line.partition(":"))
        if line.startswith("## "):
            sections.append((line[3:], [], []))
        elif not line or line.startswith("#"):
            continue
        elif not colon or not sections:
            give_up(f"docs/rules.txt:{number}: a line that is none")
        elif head == "text":
            sections[-1][1].append(text)
        elif head.split()[0] in CELLS:
            sections[-1][2].append(Block(head, text))
        elif sections[-1][2]:
            sections[-1][2][-1].cells.append((head, text))
        else:
            give_up(f"docs/rules.txt:{number}: a cell before the first block")
    return sections


def page_of(sections):
    """Returns the page: a table for each rule, and a table for each section of others."""
    lines = TOP.splitlines()
    for title, paragraphs, blocks in sections:
        lines += ["", f"## {title}"]
        for text in paragraphs:
            lines += ["", *textwrap.wrap(text, 120, break_long_words=False, break_on_hyphens=False)]
        others = [block for block in blocks if block.kind != "rule"]
        for block in blocks:
            lines += ["", *block.table()] if block.kind == "rule" else []
        if others:
            lines += ["", f"| {'example' if others[0].kind == 'example' else 'wrong body'} | test |", "|---|---|"]
        for block in others:
            shown = [block.text, *[""] * (len(block.cells) - 1)]
            lines += [f"| {cell_of(text)} | `{cell_of(name)}` |" for text, (_, name) in zip(shown, block.cells)]
    return "\n".join(lines) + "\n"


def faults_of(name):
    """Returns what is wrong with a name: PATH, or PATH and words."""
    path, _, words = name.partition(":")
    file = ROOT / path.strip()
    if not file.is_file():
        return [f"no file {path.strip()}"]
    text = text_of(file)
    wanted = [word.strip() for word in words.split(",") if word.strip()]
    return [f"no word {word} in {path.strip()}" for word in wanted if not has_word(text, word)]


def has_word(text, word):
    """Whether the text has this word as a whole word."""
    return re.search(rf"(?<!\w){re.escape(word)}(?!\w)", text) is not None


def blocks_of(kind):
    """Returns the blocks of this kind."""
    return [block for _, _, blocks in read() for block in blocks if block.kind == kind]


def faults_of_blocks(kind):
    """Returns how many blocks of this kind there are, and what is wrong with them."""
    blocks = blocks_of(kind)
    return len(blocks), [f"{block.name()}: {fault}" for block in blocks for fault in block.faults()]


def faults_of_rules():
    """Returns how many rules there are, and what is wrong with them, with their numbers and with the page."""
    count, faults = faults_of_blocks("rule")
    numbers = [block.number for block in blocks_of("rule")]
    faults += ["the numbers are not 1, 2, 3 and so on"] * (numbers != [str(at + 1) for at in range(count)])
    stale = not PAGE.is_file() or text_of(PAGE) != page_of(read())
    return count, faults + ["docs/RULES.md is stale: python3 checks/rules.py --write"] * stale


def faults_of_bodies():
    """Returns how many bodies tests refuse that no clause does, and what is wrong with them."""
    return faults_of_blocks("body")


def faults_of_examples():
    """Returns how many worked examples there are, and what is wrong with the tests that they name."""
    count, faults = faults_of_blocks("example")
    runs = sorted(RUNS.iterdir())
    for run in runs:
        tests = re.findall(r"^test: *(.*)$", text_of(run).partition("\n-- ")[0], re.M)
        faults += [f"{run.name}: {fault}" for test in tests for fault in faults_of(test)]
    return count + len(runs), faults


# ---- what is proved, and the glossary


def exports_of(crate):
    """Returns the code and the definitions of a crate, or None if there is no such crate."""
    folder = CRATES / crate
    files = [*folder.glob("src/**/*.rt"), *folder.glob("specs/**/*.antt")]
    return "\n".join(text_of(file) for file in files) or None


def entries_of_proved():
    """Returns the entries of what is proved: the crates of each, and the names in its parentheses."""
    entries = []
    for item in re.findall(r"^- (.*(?:\n  .*)*)", text_of(PROVED).partition("## What is only tested")[0], re.M):
        head = re.match(r"`golf\w*`(?:,\s+`golf\w*`)*(?=:)", item)
        groups = " ".join(re.findall(r"\(([^()]*)\)", item[head.end():] if head else item))
        entries.append((re.findall(r"`(\w+)`", head.group() if head else ""), re.findall(r"`([^`]+)`", groups)))
    return entries


def faults_of_proved():
    """Returns how many entries what is proved has, and what is wrong with them."""
    entries, faults = entries_of_proved(), []
    for crates, names in entries:
        texts = [exports_of(crate) for crate in crates]
        faults += [] if crates else [f"an entry begins with no crate: {', '.join(names)}"]
        faults += [f"no crate {crate}" for crate, text in zip(crates, texts) if text is None]
        together = "\n".join(text for text in texts if text)
        for name in (name for name in names if "/" not in name):
            parts = [part for part in name.split("::") if not part.startswith("..")]
            lacking = [part for part in parts if not has_word(together, part)]
            faults += [f"no word {part} of {name} in {', '.join(crates)}" for part in lacking]
    known, told = crates_of(), {crate for crates, _ in entries for crate in crates}
    wanted = set().union(*(below(program, known) for program in PROGRAMS.values()))
    return len(entries), faults + [f"no entry of {crate}" for crate in sorted(wanted - told)]


def faults_of_glossary():
    """Returns how many words of the glossary say where they are defined, and what is wrong with that."""
    count, faults = 0, []
    for group in re.findall(r"\(([^()]*`golf_[^()]*)\)", text_of(GLOSSARY)):
        names = re.findall(r"`([^`]+)`", group)
        places = [name for name in names if name.startswith("golf_")]
        faults += [f"no {place}" for place in places if not (CRATES / place).exists()]
        if len(places) != 1:
            continue
        crate = places[0].split("/")[0]
        text = exports_of(crate) or ""
        words = [part for name in names if name not in places for part in name.split("::")]
        count += len(words)
        faults += [f"no word {word} in {crate}" for word in words if not has_word(text, word)]
    return count, faults


PARTS = (
    ("rules", faults_of_rules),
    ("entries of what is proved", faults_of_proved),
    ("words of the glossary", faults_of_glossary),
    ("bodies that tests refuse", faults_of_bodies),
    ("worked examples", faults_of_examples),
)


def main():
    options = Words(__doc__)
    options.add_argument("--write", action="store_true", help="write docs/RULES.md anew")
    if options.parse_args().write:
        PAGE.write_text(page_of(read()), encoding="utf-8")
    said, bad = [], False
    for of, part in PARTS:
        count, faults = part()
        for fault in faults:
            print(f"{of}: {fault}")
        said.append(f"{count} {of}, {len(faults)} faults")
        bad = bad or bool(faults) or not count
    print("; ".join(said))
    return 1 if bad else 0


if __name__ == "__main__":
    sys.exit(main())
