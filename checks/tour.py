#!/usr/bin/env python3
"""Fails if docs/TOUR.md is not what docs/tour.in.md and the programs say.

The template has `{{NAME}}`, or `{{NAME: 5-12}}` for some lines, where the page has data of the run of examples/leak.go:

- `file` is the file, `report` what the released `golf run` writes, `trace` the errors of `golf-explore trace`;
- `status` is the status of that run;
- the others are the parts of crates/golf_tour/stdout, which the gate compares with what that crate prints.

Each file of a crate that the page names must be there. If golf_tour is built, its output must be that stdout. If not, a
line says so, and the rest is checked. `--write` writes the page anew, and that file too if golf_tour is built.
"""

import re
import sys

from shared import CRATES, ROOT, Words, built, ended, give_up, released, run, text_of

EXAMPLE = ROOT / "examples" / "leak.go"
TEMPLATE = ROOT / "docs" / "tour.in.md"
PAGE = ROOT / "docs" / "TOUR.md"
GIVEN, TOLD = (CRATES / "golf_tour" / name for name in ("stdin", "stdout"))
NOTE = "<!-- Made by checks/tour.py --write from docs/tour.in.md. -->\n"
NAMED = re.compile(r"`(golf(?:_\w+)?/[\w/]+\.(?:rt|antt))`")
MARK = re.compile(r"\{\{(\w+)(?:: (\d+)-(\d+))?\}\}")
COLUMNS = 116


def told_by_program(name, word):
    """Returns what a released program writes for the example: output, errors and status."""
    if not released(name).is_file():
        give_up(f"no program {released(name)}")
    done = run([released(name), word], text_of(EXAMPLE))
    return done.stdout.decode(), done.stderr.decode(), done.returncode


def stations(text):
    """Returns the parts of the text that golf_tour prints, by name."""
    parts = re.split(r"^# (\w+)\n", text, flags=re.M)
    return {name: readable(part) for name, part in zip(parts[1::2], parts[2::2])}


def readable(text):
    """Returns the text with a list or a ring by its items alone."""
    while (shorter := re.sub(r"(?:List|Ring) \{ items: (\[[^\[\]]*\]) \}", r"\1", text)) != text:
        text = shorter
    return text


def folded(line):
    """Returns a line in as many lines as it needs, broken at blanks."""
    lines = []
    while len(line) > COLUMNS and " " in line[8:COLUMNS]:
        at = line.rindex(" ", 8, COLUMNS)
        lines, line = lines + [line[:at]], "        " + line[at + 1:]
    return [*lines, line]


def data():
    """Returns the data by name."""
    source = enumerate(text_of(EXAMPLE).splitlines(), 1)
    lines = [f"{number:2}  {line}".replace("\t", "    ") for number, line in source]
    output, errors, status = told_by_program("golf", "run")
    _, trace, _ = told_by_program("golf-explore", "trace")
    given = {"file": "\n".join(lines), "report": output + errors, "status": str(status), "trace": trace}
    return {**stations(text_of(TOLD)), **given}


def page(found):
    """Returns the page as it should be, and the names of the template that are none."""
    unknown = []

    def put(match):
        name, first, last = match.groups()
        if name not in found:
            unknown.append(name)
            return ""
        if match.start() and match.string[match.start() - 1] != "\n":
            return found[name]
        lines = found[name].splitlines()[int(first) - 1 if first else 0:int(last) if last else None]
        return "\n".join(f"    {part}" for line in lines for part in folded(line))

    title, _, rest = text_of(TEMPLATE).partition("\n")
    return f"{title}\n\n{NOTE}{MARK.sub(put, rest)}", unknown


def main():
    options = Words(__doc__)
    options.add_argument("--write", action="store_true", help="write docs/TOUR.md anew")
    write, program, faults = options.parse_args().write, built("golf_tour"), []
    if program.is_file():
        text = run([program], text_of(EXAMPLE)).stdout.decode()
        if write:
            TOLD.write_text(text, encoding="utf-8")
        elif text != text_of(TOLD):
            faults.append("golf_tour prints another text than crates/golf_tour/stdout: python3 checks/tour.py --write")
    else:
        print("golf_tour: not built, so what it prints is not compared: cd crates/golf_tour && rt build")
    if text_of(GIVEN) != text_of(EXAMPLE):
        faults.append("crates/golf_tour/stdin is not examples/leak.go")
    text, unknown = page(data())
    faults += [f"docs/tour.in.md: no data {name}" for name in unknown]
    faults += [f"docs/tour.in.md: no file {name}" for name in NAMED.findall(text) if not (CRATES / name).is_file()]
    if write:
        PAGE.write_text(text, encoding="utf-8")
    elif not PAGE.is_file() or text_of(PAGE) != text:
        faults.append("docs/TOUR.md is stale: python3 checks/tour.py --write")
    return ended(f"docs/TOUR.md: {len(text.split())} words", faults)


if __name__ == "__main__":
    sys.exit(main())
