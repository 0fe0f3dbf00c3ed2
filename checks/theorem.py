#!/usr/bin/env python3
"""Fails if docs/THEOREM.md or docs/REVIEW.md does not agree with the clauses and the definitions that they reach.

It begins with the definitions that the two clauses name (ROOTS) and goes on along the `use` lines: a definition reaches
each definition that its text names, of the same file or of a `use` line, also by a short name of a module. These things
are checked:

- docs/REACHED.md, which `--write` makes, lists the files that have a definition which is reached.
- Each code block of a page stands in src/top.rt or specs/ of a crate of TOPS, line by line.
- Each file that a page names is there. If THEOREM names one of specs/, or REVIEW one to read, it is reached.
- Each word that stands with a file in parentheses is in that file.
- Each wrong body that stands behind its crate and a colon is there.
- The numbers of lines in the reading list of REVIEW are those of the files, and their sum.
- The minutes behind a wrong body there are those of its crate and the crates below it in docs/gate.tsv.
- The sums in docs/GATE.md are those of docs/gate.tsv.
"""

import re
import sys
import textwrap
from collections import defaultdict

from prove import costs
from shared import CRATES, ROOT, Words, below, crates, ended, text_of

PAGE = ROOT / "docs" / "THEOREM.md"
REVIEW = ROOT / "docs" / "REVIEW.md"
MEANS = CRATES / "golf_command" / "specs" / "Means.antt"
ROOTS = [
    (MEANS, "Tells"),
    (MEANS, "words_of"),
    (MEANS, "seen"),
    (CRATES / "golf_run" / "specs" / "HasRun.antt", "sinks"),
    (CRATES / "golf_explore_command" / "specs" / "Means.antt", "CallTells"),
]
TOPS = ["golf_command", "golf_explore_command"]
LIST = ROOT / "docs" / "REACHED.md"
HEAD_OF_LIST = """# Every file that the clauses reach

`checks/theorem.py --write` makes this page. It begins at `Tells` and `CallTells` and follows each name to its
definition, along the `use` lines. Files of the reading lists of `docs/THEOREM.md` and `docs/REVIEW.md` are bold. Types
of the code are in `src/`.
"""
# The layers of crates.txt, those that matter first.
LAYERS = ["program", "definitions", "ground", "laws", "collector", "machine", "checker", "lexer and parser", "reader",
          "generator"]
USE = re.compile(r"^(?:pub )?use Rattle\.(\w+(?:\.\w+)*)(?:\.\{([^}]*)\})?(?: as (\w+))?", re.M)
WORD = re.compile(r"[^\s(){}\[\],;.`]+")
HEAD = re.compile(r"(?:(?:abbrev|unfoldable|opaque|private|pub) )*(?:(?:record|data|module|abbrev) )?(?:pub )?(\S+)")
NAMED = re.compile(r"`(golf_\w+/[\w/]+\.(?:rt|antt))`(\s+\(([^()]*)\))?")
# A row of the reading list: the file with its words, and how many lines it has.
TO_READ = re.compile(r"^\| `(golf_\w+/specs/[\w/]+\.antt)` \([^()]*\) \| ([\d,]+) \|", re.M)
SUM = re.compile(r"^\| all \| ([\d,]+) \|", re.M)
# The end of a row of claims: the crate of its wrong body, and the minutes of processor.
DEAR = re.compile(r"(`(golf_\w+)`: `\w+` \| `[\w-]+/` \| )(\d+)( \|)$", re.M)


def file_of(module):
    """Returns the file of specs/ that a module is, or None: of the kit, or made from the code."""
    parts = module.split(".")
    if len(parts) < 3 or parts[1] != "specs" or parts[2] == "declared":
        return None
    file = CRATES.joinpath(*parts).with_suffix(".antt")
    return file if file.is_file() else None


def definitions_of(text):
    """Returns the definitions of a file by name: what begins at the left end goes with what is indented below."""
    blocks = defaultdict(list)
    name = None
    for line in text.splitlines():
        if re.match(r"[^\s})]", line) and not line.startswith("use "):
            name = HEAD.match(line).group(1)
        if name:
            blocks[name].append(line)
    return {name: "\n".join(lines) for name, lines in blocks.items()}


class Files:
    """The files that were read so far."""

    def __init__(self):
        self.known = {}

    def of(self, file):
        """Returns the definitions of a file, what its `use` lines import by name, and the modules with a short name."""
        if file not in self.known:
            text = re.sub(r"--[^\n]*", "", text_of(file))
            names, modules = {}, {}
            for module, imported, short in USE.findall(text):
                target = file_of(module)
                if not target:
                    continue
                if short:
                    modules[short] = target
                for part in filter(None, (part.strip() for part in imported.split(","))):
                    name, _, own = part.partition(" as ")
                    names[own or name] = (target, name)
            self.known[file] = (definitions_of(re.sub(USE, "", text)), names, modules)
        return self.known[file]


def reached():
    """Returns the definitions that the clauses reach, as pairs of file and name, with the number of their lines."""
    files, lines, left = Files(), {}, list(ROOTS)
    while left:
        file, name = left.pop()
        own, names, modules = files.of(file)
        if name not in own:
            # A field, a constructor or a word of a module: the definition whose text has it.
            left += [(file, it) for it, text in own.items() if name in WORD.findall(text)][:1]
            continue
        if (file, name) in lines:
            continue
        text = own[name]
        lines[file, name] = sum(1 for line in text.splitlines() if line.strip())
        for word in set(WORD.findall(text)):
            left += [(file, word)] if word in own else []
            left += [names[word]] if word in names else []
        for short, word in re.findall(r"(\w+)\.([\w-]+)", text):
            left += [(modules[short], word)] if short in modules else []
    return lines


def listed(lines, pages):
    """Returns the list, a line a crate: its files, first those that the pages name, in bold."""
    of = {name: crate.layer.split(":")[0] for name, crate in crates().items()}
    named = set(re.findall(r"`(golf_\w+/specs/[\w/]+\.antt)`", pages))
    rows = defaultdict(list)
    for file in {file for file, _ in lines}:
        place = file.relative_to(CRATES)
        rows[place.parts[0]].append((str(place) not in named, "/".join(place.with_suffix("").parts[2:])))
    text, last = [], ""
    for crate in sorted(rows, key=lambda it: ((LAYERS + [of[it]]).index(of[it]), list(of).index(it))):
        text += [] if of[crate] == last else [*[""] * bool(text), f"{of[crate][0].upper()}{of[crate][1:]}:", ""]
        last = of[crate]
        files = ", ".join(f"`{name}`" if other else f"**`{name}`**" for other, name in sorted(rows[crate]))
        text += textwrap.wrap(f"- `{crate}`: {files}", 120, subsequent_indent="  ", break_on_hyphens=False)
    return text


def single_blanks(line):
    """Returns a line with one blank between its words."""
    return re.sub(r"\s+", " ", line).strip()


def faults_of_blocks(page):
    """Returns the lines of code blocks that stand in no file of TOPS."""
    sources = [CRATES / top / "src" / "top.rt" for top in TOPS]
    sources += [file for top in TOPS for file in sorted((CRATES / top / "specs").glob("*.antt"))]
    stand = {single_blanks(line) for file in sources for line in text_of(file).splitlines()}
    lines = [line for block in re.findall(r"^```rattle\n(.*?)^```", page, re.M | re.S) for line in block.splitlines()]
    return [f"not in {' or '.join(TOPS)}: {line.strip()}" for line in lines if single_blanks(line) not in {"", *stand}]


def faults_of_files(page, files, to_read):
    """Returns what is wrong with the files that the page names, with the words beside them, and with those to read."""
    faults = []
    for name, _, words in NAMED.findall(page):
        file = CRATES / name
        if not file.is_file():
            faults.append(f"no file {name}")
            continue
        text = set(re.findall(r"[\w-]+", text_of(file)))
        faults += [f"no word {word} in {name}" for word in re.findall(r"`([\w-]+)`", words) if word not in text]
        if name in to_read and file not in files:
            faults.append(f"the clause does not reach {name}")
    return faults


def faults_of_wrong_bodies(page):
    """Returns the wrong bodies that are not there: `golf_x`: `an_edit`, `another`. A file begins with a capital."""
    faults = []
    for crate, edits in re.findall(r"`(golf_\w+)`:((?:,?\s+`[a-z]\w*`(?:\s+\([^()]*\))?)+)", page):
        folders = [CRATES / crate / "must-fail", *(ROOT / "wrong" / of / crate for of in ("code", "definitions"))]
        names = re.findall(r"`(\w+)`", re.sub(r"\([^()]*\)", "", edits))
        faults += [f"no wrong body {edit} of {crate}" for edit in names
                   if not any((folder / f"{edit}.edit").is_file() for folder in folders)]
    return faults


def faults_of_lines(page):
    """Returns what is wrong with the numbers of lines in the reading list."""
    told = {name: int(lines.replace(",", "")) for name, lines in TO_READ.findall(page)}
    have = {name: len(text_of(CRATES / name).splitlines()) for name in told if (CRATES / name).is_file()}
    faults = [f"{name} has {lines} lines and not {told[name]}" for name, lines in have.items() if lines != told[name]]
    sums = [int(lines.replace(",", "")) for lines in SUM.findall(page)]
    return faults + ([] if sums == [sum(have.values())] else [f"all files to read have {sum(have.values())} lines"])


def with_minutes(page):
    """Returns the page with the minutes of processor that docs/gate.tsv has for the crates of its wrong bodies."""
    known = crates()

    def renewed(row):
        minutes, _ = costs({row[2], *below(row[2], known)}, known)
        # One decimal first: a sum over a set may differ in its last digit from run to run.
        return f"{row[1]}{int(round(minutes, 1) + 0.5)}{row[4]}"

    return DEAR.sub(renewed, page)


def faults_of_sums():
    """Returns what is wrong with docs/GATE.md: it has the sums of the last row of docs/gate.tsv."""
    rows = [line.split("\t") for line in text_of(ROOT / "docs" / "gate.tsv").splitlines()]
    sums = ", ".join(f"{phase} {minutes}" for phase, minutes in zip(rows[0][1:], rows[-1][1:]))
    page = single_blanks(text_of(ROOT / "docs" / "GATE.md"))
    return [] if f"{sums}." in page else [f"GATE lacks the sums: {sums}"]


def main():
    options = Words(__doc__)
    options.add_argument("--write", action="store_true", help="write docs/REACHED.md and the minutes anew")
    write = options.parse_args().write
    lines, page, review = reached(), text_of(PAGE), text_of(REVIEW)
    if write:
        review = with_minutes(review)
        REVIEW.write_text(review, encoding="utf-8")
    files, count = {file for file, _ in lines}, sum(lines.values())
    told = f"{len(files)} files, and {count:,} of their lines, without blank lines and comments."
    told = "\n".join([HEAD_OF_LIST, told, "", *listed(lines, page + review), ""])
    if write:
        LIST.write_text(told, encoding="utf-8")
    named = {name for name, _, _ in NAMED.findall(page) if "/specs/" in name}
    faults = faults_of_blocks(page) + faults_of_files(page, files, named) + faults_of_wrong_bodies(page)
    to_read = {name for name, _ in TO_READ.findall(review)}
    bad = faults_of_files(review, files, to_read) + faults_of_wrong_bodies(review) + faults_of_lines(review)
    faults = [f"THEOREM: {fault}" for fault in faults] + [f"REVIEW: {fault}" for fault in bad] + faults_of_sums()
    if with_minutes(review) != review:
        faults.append("the minutes of REVIEW are stale: python3 checks/theorem.py --write")
    if not LIST.is_file() or told != text_of(LIST):
        faults.append("docs/REACHED.md is stale: python3 checks/theorem.py --write")
    return ended(f"{len(files)} files and {count} lines are reached", faults)


if __name__ == "__main__":
    sys.exit(main())
