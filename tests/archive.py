"""Runs as text archives: one file a run, in the form of txtar, which Go's own tests use.

    golf run --recover
    status: 1

    -- main.go --
    package main
    -- stdout --
    1
    -- stderr --
    collection 1: marked 0, reported 1, kept 1, reclaimed 0, objects 1

The first line has the program and its words, with blanks between. The lines after it are the head. Then come the
texts, each after a line with its name: `main.go` is standard input, and `stdout` and `stderr` are what is wanted. A
text that is left out is empty. A line of the head is one of these, each at most once; a line with `#` is a comment:

    status: N                      the status that is wanted: always there
    test: PATH: NAME               a test of the gate that shows the same; it is named as in docs/RULES.md
    input: examples/leak.go        standard input is this file of the repository, in place of `main.go`
    input: classic_leak            .. is the `main.go` of this run
    input: 1048577 blanks          .. is so many blanks
    input: a directory             .. is no file
    output: a full device          standard output takes no byte
    memory: 60000 kB               the address space is no larger
    main.go: no newline at its end

Where memory is taken back from 10,000 goroutines, `stderr.end` stands in place of `stderr`: how the errors end after
the lines of 160 collections, which are judged by their form.
"""

import re

from shared import PROGRAMS, ROOT

RUNS = ROOT / "tests" / "runs"
KEYS = ("status", "test", "input", "output", "memory", "main.go")
TEXTS = ("main.go", "stdout", "stderr", "stderr.end")
DIRECTORY, FULL, NO_NEWLINE = "a directory", "a full device", "no newline at its end"
NAME = re.compile(r"^-- (\S+) --\n", re.M)


class Unread(Exception):
    """A file that is no run, and why."""


def parts_of(text):
    """Returns the head of an archive and its texts by name."""
    head, *rest = NAME.split(text)
    texts = dict(zip(rest[::2], rest[1::2]))
    if len(texts) < len(rest) // 2:
        raise Unread("two texts have the same name")
    if not text.endswith("\n"):
        raise Unread("the last line has no newline")
    return head, texts


def keys_of(lines):
    """Returns the lines of a head by key, without comments."""
    found = {}
    for line in lines:
        key, colon, value = line.partition(":")
        if not line.strip() or line.startswith("#"):
            continue
        if not colon or key not in KEYS or key in found:
            raise Unread(f"a line of the head that is none, or stands twice: {line}")
        found[key] = value.strip()
    return found


class Run:
    """A run: its program and words, its input and limits, and what is wanted of it."""

    def __init__(self, path):
        self.name = path.stem
        head, self.texts = parts_of(path.read_bytes().decode())
        line, *lines = head.splitlines() or [""]
        self.program, *self.words = line.split() or [""]
        self.keys = keys_of(lines)
        if self.program not in PROGRAMS:
            raise Unread(f"the first line begins with neither of {', '.join(PROGRAMS)}: {line}")
        if not self.keys.get("status", "").isdigit():
            raise Unread("no status")
        if strange := [name for name in self.texts if name not in TEXTS]:
            raise Unread(f"a text of another name: {strange[0]}")
        self.status = int(self.keys["status"])
        self.memory = int(self.keys["memory"].removesuffix(" kB")) if "memory" in self.keys else None

    def text(self, name):
        """Returns the bytes of a text, which are none if it is left out."""
        text = self.texts.get(name, "").encode()
        return text[:-1] if name == "main.go" and self.keys.get("main.go") == NO_NEWLINE else text

    def has_directory(self):
        """Whether standard input is a directory."""
        return self.keys.get("input") == DIRECTORY

    def has_full_device(self):
        """Whether standard output is a full device."""
        return self.keys.get("output") == FULL

    def source(self):
        """Returns the bytes of standard input."""
        where = self.keys.get("input")
        if where is None or self.has_directory():
            return self.text("main.go")
        if where.endswith(" blanks"):
            return b" " * int(where.removesuffix(" blanks"))
        return (ROOT / where).read_bytes() if "/" in where else of(where).source()


def of(name):
    """Returns the run of that name."""
    return Run(RUNS / f"{name}.txtar")


def runs(only=""):
    """Returns the runs whose name has this text, by name, and a line for each file that is none."""
    found, unread = [], []
    for path in sorted(RUNS.iterdir()):
        try:
            found += [Run(path)] if only in path.stem else []
        except (Unread, ValueError) as why:
            unread.append(f"{path.relative_to(ROOT)}: {why}")
    return found, unread
