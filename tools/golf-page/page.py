#!/usr/bin/env -S python3 -B
"""usage: golf-page [options] FILE [words of golf run, or an answer of golf-explore] > PAGE

Makes one page of a run, which needs nothing else. An answer of golf-explore is given as it is printed, such as
`leak: --every 26 --schedule choices:0,1`.

    --help              shows this text
    --version           shows the release that is used
    --golf PROGRAM      the program golf; without it $GOLF, or the one that belongs to golf-page
    --explore PROGRAM   the program golf-explore; without it $GOLF_EXPLORE, or the one that belongs to golf-page
    --lines MAP         FILE is a lowered file, and MAP has the place of each of its lines
    --notes NOTES       NOTES has the places of its panics, and what its lines can wait on
    --source ORIGINAL   a file from which it was lowered, once for each
    --command TEXT      the command that the page shows

The status is 0 if there is a page, 5 if the words are wrong, else 1. When golf-page is ended, the programs end too.
"""

import html
import os
import re
import signal
import sys

import home
from data import data_of, embedded
from places import Lowered, Plain
from program import Failure, Programs, program_path
from run import USAGE, Run
from source import MOST_BYTES, rows_of
from tell import STATUS, counted, fault_note, headline, output_rows, refusal_note, report_rows, rules_of
from words import of_answer

OPTIONS = ("--golf", "--explore", "--lines", "--notes", "--source", "--command")
SCRIPTS = ("data.js", "lanes.js", "source.js", "why.js", "page.js")
MOST_OF_A_COMMAND = 200


class Page:
    """The page of a run."""

    def __init__(self, run, command):
        self.run, self.command = run, command

    def html(self):
        """Returns the text of the page."""
        run = self.run
        head, more, level = headline(run)
        values = {
            "NAME": html.escape(run.places.name),
            "LEVEL": level,
            "HEAD": html.escape(head),
            "MORE": html.escape(more),
            "COMMAND": html.escape(shortened(self.command, MOST_OF_A_COMMAND)),
            "FACTS": self.facts(),
            "STATUS": html.escape(f"Status {run.status}. {STATUS.get(run.status, '') if not run.exits else ''}"),
            "SOURCE": self.source(),
            "KIND": "run" if run.accepted else "refused",
            "OUTPUT": output_rows(run.printed.output),
            "REPORT": report_rows(run),
            "HOW": html.escape(f"The reasons are from {run.how}." if run.how else ""),
            "DATA": embedded(data_of(run) if run.accepted else None),
            "STYLE": view("style.css"),
            "SCRIPT": "\n".join(view(name) for name in SCRIPTS),
        }
        # All marks are replaced at the same time, so that no text of the file is taken for a mark.
        return re.sub(r"@@([A-Z]+)@@", lambda match: values[match[1]], view("template.html"))

    def facts(self):
        run = self.run
        facts = [("status", str(run.status)), ("turns", f"{run.story.last:,}"),
                 ("collections", f"{len(run.trace.collections):,}"), ("schedule", schedule_of(run.options))]
        shown = facts if run.accepted else facts[:1]
        return "".join(f"<div><dt>{name}</dt><dd>{html.escape(value)}</dd></div>" for name, value in shown)

    def source(self):
        """Returns the rows of the files."""
        places, notes, wanted, parts = self.run.places, self.notes(), self.wanted(), []
        most = MOST_BYTES // len(places.files)
        for source, (name, before) in zip(places.sources, places.files):
            if len(places.files) > 1:
                parts.append(f"<li class=file>{html.escape(name)}</li>")
            inside = range(before + 1, before + len(source.rows) + 1)
            parts.append(rows_of(source, {row - before: note for row, note in notes.items() if row in inside},
                                 [row - before for row in wanted if row in inside], before + 1, most))
        return "\n".join(parts)

    def notes(self):
        """Returns the callouts by row."""
        run = self.run
        if run.refusal:
            line, note = refusal_note(run.refusal, run.programs.source, rules_of(read(home.LANGUAGE)))
            # A file may end inside a token, on a line that is empty.
            rows = sum(len(source.rows) for source in run.places.sources)
            return {min(run.places.row(line), rows): note} if line else {}
        fault = None if run.exits else run.trace.fault
        return {run.places.row(int(fault[4])): fault_note(run.tail)} if fault else {}

    def wanted(self):
        """Returns the rows that come first if the files are too long: those of callouts, of last waits, of other
        waits, of starts, and of turns."""
        goroutines = self.run.story.goroutines.values()
        lines = [wait.line for goroutine in goroutines for wait in goroutine.waits[-1:]]
        lines += [wait.line for goroutine in goroutines for wait in goroutine.waits[:-1]]
        lines += [goroutine.started for goroutine in goroutines if goroutine.started]
        lines += [turn.line for turn in self.run.trace.turns]
        return [*self.notes(), *dict.fromkeys(self.run.places.row(line) for line in lines)]


def schedule_of(options):
    """Returns the schedule in few words."""
    if "--threads" in options:
        return f"{options['--threads']} threads"
    schedule = options.get("--schedule", "rotate")
    return counted(schedule.count(",") + 1, "choice") if schedule.startswith("choices:") else schedule


def shortened(text, most):
    return text if len(text) <= most else text[:most - 2] + " …"


def view(name):
    return read(os.path.join(home.HERE, "view", name))


def read(path, mode="r"):
    with open(path, mode, encoding=None if "b" in mode else "utf-8") as file:
        return file.read()


def page_of(options, path, words):
    """Returns the page of a file with these words."""
    golf = program_path(options.get("--golf"), "GOLF", "golf")
    explore = program_path(options.get("--explore"), "GOLF_EXPLORE", "golf-explore")
    raw = read(path, "rb")
    if "--lines" in options:
        originals = [(each, read(each, "rb")) for each in options["--source"]]
        places = Lowered(originals, raw, read(options["--lines"]),
                         read(options["--notes"]) if "--notes" in options else "")
    else:
        places = Plain(path, raw)
    command = options.get("--command", " ".join(["./golf run", *of_answer(words), "<", path]))
    return Page(Run(Programs(golf, explore, raw), places, words), command)


def read_options(words):
    """Returns the options before the file, and the words from the file on."""
    options = {"--source": []}
    while len(words) > 1 and words[0] in OPTIONS:
        if words[0] == "--source":
            options["--source"].append(words[1])
        else:
            options[words[0]] = words[1]
        words = words[2:]
    return options, words


def main(words):
    """Does what the words ask for, and returns the status."""
    if words in (["--help"], ["--version"]):
        return put((__doc__ if words == ["--help"] else home.version()).rstrip() + "\n")
    options, words = read_options(words)
    if not words or words[0].startswith("-"):
        wrong = f"no such option: {words[0]}" if words else "no file"
        print(f"golf-page: {wrong} (golf-page --help shows the words)", file=sys.stderr)
        return USAGE
    try:
        text = page_of(options, words[0], words[1:]).html()
    except Failure as fault:
        print(f"golf-page: {fault}", file=sys.stderr)
        return fault.status
    except OSError as fault:
        print(f"golf-page: {fault.filename}: {fault.strerror}", file=sys.stderr)
        return 1
    return put(text)


def put(text):
    """Writes the page, or another text. Returns the status."""
    try:
        sys.stdout.buffer.write(text.encode("utf-8", "replace"))
        sys.stdout.flush()
    except OSError as fault:
        # Python writes the rest when it ends: to nowhere.
        os.dup2(os.open(os.devnull, os.O_WRONLY), sys.stdout.fileno())
        print(f"golf-page: the output cannot be written: {fault.strerror}", file=sys.stderr)
        return 1
    return 0


def whole(words):
    """Does what the words ask for, unless a signal ends it. Returns the status."""
    for number in (signal.SIGTERM, signal.SIGHUP):
        signal.signal(number, signal.default_int_handler)
    try:
        return main(words)
    except KeyboardInterrupt:
        print("golf-page: ended", file=sys.stderr)
        return 1


if __name__ == "__main__":
    sys.exit(whole(sys.argv[1:]))
