"""The places of a run: which rows and functions of the page its lines are in, and what it printed.

A file that is run as it is has its own lines. A file that tools/golf-lower has lowered has a map: line k of the map
is the place of line k of the lowered file, as FILE:LINE:COLUMN, a tab and the function. A generated line is 0,
and a tab and a name if it has one. Rows count the lines of all files of the page, from 1. Row 0 is generated code.

Its notes have a line for each place that a panic of the file can tell, as site N PLACE, and for each thing that a line
can wait on, as wait LINE KIND THING. Tabs are between the parts.
"""

import os
import re

from calls import Calls
from source import Source

# A lowered program prints a line in parts, as tools/golf-lower/output.go says. The mark is an operand of Println
# between two parts, and after the last one if the line does not end there.
MARK = "‿".encode()
KIND = re.compile(MARK + b"(err|panic|exit|site) ")
LINE = re.compile(r"\b(at )?line (\d+)\b")
WAIT = re.compile(r"(goroutine (\d+): (.+?)) at line (\d+)(?:, started at line (\d+))?(?=$|, )")
FAULT_END = re.compile(r"\(goroutine (\d+), line (\d+)\)$")
EXIT = re.compile(r"fatal error: sync: unlock of unlocked mutex \(goroutine \d+, line (\d+)\)$")


class Plain:
    """The places of a file that is run as it is: line N is row N."""

    def __init__(self, path, raw):
        self.name = os.path.basename(path)
        self.source = Source(text_of(raw))
        self.sources, self.files = [self.source], [[self.name, 0]]
        self.finalisers = self.source.finalisers

    def row(self, line):
        return line

    def column(self, line):
        return 0

    def function(self, line):
        return self.source.function_of(line)

    def call(self, line):
        return self.source.call_of(line)

    def at(self, line):
        """Returns the words for a line of the run, behind a word such as started."""
        return f"at line {line}"

    def follow(self, turns):
        """Takes the turns of the run, before its waits are told."""

    def wait_at(self, goroutine, line, moment):
        """Returns the words for where a goroutine waits at a moment."""
        return self.at(line)

    def things(self, kind, line):
        """Returns the words for what a goroutine waits on."""
        return ""

    def told_text(self, text, moment=0):
        """Returns a line of standard error, of this moment, with the places of the page's files."""
        return text

    def told_tail(self, tail, printed):
        """Returns a panic or fatal error with the places of the page's files."""
        return tail

    def printed(self, pieces):
        return Printed(pieces)


class Lowered:
    """The places of the files from which a lowered file was made. `originals` has (path, bytes) of each."""

    def __init__(self, originals, lowered, lines, notes=""):
        names = [os.path.basename(path) for path, raw in originals]
        self.name = ", ".join(names)
        self.sources = [Source(text_of(raw)) for path, raw in originals]
        self.lowered = Source(text_of(lowered))
        self.lines = text_of(lowered).split("\n")
        self.finalisers = self.lowered.finalisers
        self.files, before = [], 0
        for name, source in zip(names, self.sources):
            self.files.append([name, before])
            before += len(source.rows)
        self.first_rows = dict(self.files)
        self.places = [place_of(line) for line in lines.splitlines()]
        self.sites, self.waits = {}, {}
        for kind, *rest in (line.split("\t") for line in notes.splitlines()):
            if kind == "site":
                self.sites[int(rest[0])] = rest[1]
            else:
                self.waits.setdefault(int(rest[0]), []).append(rest[1:])
        self.follow([])

    def follow(self, turns):
        self.turns, self.known_calls = turns, None

    @property
    def calls(self):
        """The calls of generated code in the run."""
        if self.known_calls is None:
            self.known_calls = Calls(self, self.turns)
        return self.known_calls

    def is_own(self, line):
        return bool(self.place(line)[1])

    def around(self, line):
        return self.lowered.function_of(line)

    def text(self, line):
        return self.lines[line - 1]

    def place(self, line):
        """Returns (file, line, column, function), with line 0 if the line is generated."""
        return self.places[line - 1] if 0 < line <= len(self.places) else ("", 0, 0, "")

    def row(self, line):
        file, original, _, _ = self.place(line)
        return self.first_rows[file] + original if original else 0

    def column(self, line):
        return self.place(line)[2]

    def function(self, line):
        return self.place(line)[-1] or self.lowered.function_of(line)

    def call(self, line):
        return ""

    def told(self, line):
        """Returns the place of a line. Generated code is told by its function."""
        file, original, column, function = self.place(line)
        if not original:
            return f"in {self.function(line) or 'generated code'}"
        return f"{file}:{original}:{column}" + (f" in {function}" if function else "")

    def at(self, line):
        return ("at " if self.place(line)[1] else "") + self.told(line)

    def wait_at(self, goroutine, line, moment):
        """Returns the words for where a goroutine waits at a moment, in generated code also the place of its call."""
        call = None if self.is_own(line) else self.calls.of_wait(goroutine, moment)
        return self.at(line) + (f", called {self.at(call)}" if call else "")

    def things(self, kind, line):
        found = [text for start, text in self.waits.get(line, []) if kind.startswith(start)]
        return f", on {found[0]}" if found else ""

    def told_lines(self, text):
        return LINE.sub(lambda match: self.at(int(match[2])) if match[1] else self.told(int(match[2])), text)

    def told_wait(self, match, moment):
        """Returns the words for a goroutine that waits at a moment."""
        head, goroutine, kind, line, started = match.groups()
        start = f", started {self.at(int(started))}" if started else ""
        return f"{head} {self.wait_at(int(goroutine), int(line), moment)}{start}{self.things(kind, int(line))}"

    def told_text(self, text, moment=0):
        if text.startswith("goroutine "):
            return WAIT.sub(lambda match: self.told_wait(match, moment), text, count=1)
        if text.startswith("refused: "):
            return "refused: golf does not accept the lowered file: " + self.told_lines(text.removeprefix("refused: "))
        return FAULT_END.sub(lambda match: self.told_lines(match[0]), text)

    def told_tail(self, tail, printed):
        exits = EXIT.match(tail)
        if exits and printed.exit is not None:
            at = f" {self.at(int(exits[1]))}" if self.place(int(exits[1]))[1] else ""
            return f"golf-go: os.Exit({printed.exit}){at}"
        if tail.startswith(f"panic: {MARK.decode()}"):
            tail = f"panic: {printed.panic.decode('utf-8', 'replace')}{tail.removeprefix('panic: ' + MARK.decode())}"
        return FAULT_END.sub(lambda match: self.told_fault(match, printed), tail)

    def told_fault(self, match, printed):
        """Returns the end of a panic. The place is the one that the file itself has told, else that of the panic, and
        else that of the call of generated code."""
        goroutine, line = int(match[1]), int(match[2])
        told = self.sites.get(printed.site)
        if told is None:
            told = self.told(line if self.is_own(line) else self.calls.last(goroutine) or line)
        return f"(goroutine {goroutine}, {told})"

    def printed(self, pieces):
        """Decodes what the lowered program printed."""
        printed = Printed([])
        for turn, piece in pieces:
            for line in piece.splitlines(keepends=True):
                printed.take(turn, line)
        return printed


class Printed:
    """What a file printed: (turn, bytes) to standard output, (turn, bytes) to standard error, what its last panic
    tells, the number of the place of a panic, and the status of os.Exit, if the file called that."""

    def __init__(self, output):
        self.output = output
        self.errors, self.panic, self.site, self.exit = [], b"", None, None

    def take(self, turn, line):
        """Takes one line that a lowered program printed."""
        kind = KIND.match(line)
        rest = line[kind.end():] if kind else line
        if kind and kind[1] == b"exit":
            self.exit = int(rest.split()[0])
            return
        if kind and kind[1] == b"site":
            self.site = int(rest.split()[0])
            return
        text = b"" if rest == MARK + b"\n" else rest.removesuffix(b" " + MARK + b"\n").replace(b" " + MARK + b" ", b"")
        if text.startswith(MARK + b"byte "):
            text = bytes([int(text.split()[1])])
        if kind and kind[1] == b"panic":
            self.panic += text
        else:
            (self.errors if kind else self.output).append((turn, text))


def place_of(line):
    """Reads a line of a map."""
    if line.startswith("0"):
        return "", 0, 0, line[2:]
    place, _, function = line.partition("\t")
    file, number, column = place.rsplit(":", 2)
    return file, int(number), int(column), function


def text_of(raw):
    return raw.decode("utf-8", "replace").replace("\r\n", "\n")
