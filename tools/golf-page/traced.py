"""Reads what `golf-explore trace` writes: turns, output, collections and the last line.

Standard error has one line for each turn, before the lines of its collections:

    turn 23: goroutine 1 at line 33, wakes goroutine 2, goroutine 3
    collection 1: marked 0, reported 1, kept 1, reclaimed 0, objects 1
    goroutine 2: chan receive at line 5, started at line 9

The output of a turn comes right before its line. A panic may have any text, on several lines. So nothing after its
head is read as a line of the program.
"""

import functools
import re
from typing import NamedTuple, Optional, Tuple

from program import OUTPUT, Failure

TURN = re.compile(r"goroutine (\d+) at line (\d+)(?:, (?:starts goroutine (\d+)|(blocks)|(ends)))?"
                  r"(?:, wakes (goroutine \d+(?:, goroutine \d+)*))?$")
COLLECTION = re.compile(
    r"collection (\d+): marked (\d+), reported (\d+), kept (\d+), reclaimed (\d+), objects (\d+)$")
DEAD = re.compile(r"goroutine (\d+): (.+) at line (\d+), started at line (\d+)$")
REACHED = re.compile(r"goroutine (\d+): (.+) at line (\d+), reached by (.+)$")
FAULT = re.compile(r"(?s)(panic|fatal error): (.*) \(goroutine (\d+), line (\d+)\)$")
STOPPED = re.compile(r"stopped after (\d+) turns$")
ASLEEP = "fatal error: all goroutines are asleep"


class Turn(NamedTuple):
    """One turn: its goroutine, the line of its instruction, and what it did to goroutines."""

    goroutine: int
    line: int
    starts: Optional[int]
    blocks: bool
    ends: bool
    wakes: Tuple[int, ...]


class Dead(NamedTuple):
    """A dead goroutine of a report."""

    goroutine: int
    wait: str
    line: int
    started: int


class Reached(NamedTuple):
    """Why a blocked goroutine is live. The objects of the chain are positive, its goroutines negative."""

    goroutine: int
    wait: str
    line: int
    chain: Tuple[int, ...]


class Collection:
    """One collection: the turn before it, its line, the dead goroutines that it reports, and why others are live."""

    def __init__(self, turn, match):
        self.turn, self.text = turn, match[0]
        self.kept, self.reclaimed = int(match[4]), int(match[5])
        self.dead, self.reached = [], []

    def add(self, entry):
        (self.dead if isinstance(entry, Dead) else self.reached).append(entry)


@functools.lru_cache(maxsize=1 << 16)
def turn_of(text):
    """Reads the line of a turn, from behind its number on. Returns None if it is no such line. The lines of many turns
    repeat."""
    match = TURN.match(text)
    if not match:
        return None
    goroutine, line, starts, blocks, ends, wakes = match.groups()
    woken = tuple(int(number) for number in re.findall(r"\d+", wakes)) if wakes else ()
    return Turn(int(goroutine), int(line), int(starts) if starts else None, bool(blocks), bool(ends), woken)


@functools.lru_cache(maxsize=1 << 16)
def entry_of(line):
    """Reads the line of one goroutine. The lines of many collections repeat."""
    match = REACHED.match(line)
    if match:
        return Reached(int(match[1]), match[2], int(match[3]), chain_of(match[4]))
    match = DEAD.match(line)
    if match:
        return Dead(int(match[1]), match[2], int(match[3]), int(match[4]))
    raise Failure(f"the program wrote a line that is not known here: {line[:200]}")


def chain_of(text):
    return tuple(int(number) if kind == "object" else -int(number)
                 for kind, number in (part.split(" ") for part in text.split(", ")))


class Trace:
    """What one run did. `lines` has (turn, line) of standard error without the turns, `pieces` has (turn, bytes) of the
    output. The turn of a piece is None if the order of the writes is not known."""

    def __init__(self, written):
        self.status = written.status
        self.turns, self.collections, self.lines, self.pieces = [], [], [], []
        self.tail = ""       # a panic or fatal error, to its end
        self.stopped = None  # after so many turns, if the run has not ended
        self.rest = ""       # the part of standard error that has no end of a line yet
        for stream, piece in written.writes:
            if stream == OUTPUT:
                self.pieces.append((len(self.turns) + 1 if written.in_order else None, piece))
            else:
                self.read(piece.decode("utf-8", "replace"))
        if self.rest:
            self.read("\n")
        self.tail = self.tail.rstrip("\n")

    @property
    def asleep(self):
        return self.tail.startswith(ASLEEP)

    @property
    def fault(self):
        """The match of a panic or fatal error that names a goroutine and a line, or None."""
        return FAULT.match(self.tail)

    def read(self, text):
        """Takes more text of standard error, and reads the lines that are whole."""
        if self.tail:
            self.tail += text
            return
        lines = (self.rest + text).split("\n")
        self.rest = lines.pop()
        for at, line in enumerate(lines):
            if line.startswith(("panic: ", "fatal error: ")):
                self.tail, self.rest = "\n".join(lines[at:] + [self.rest]), ""
                return
            self.read_line(line)

    def read_line(self, line):
        if line.startswith("turn "):
            self.read_turn(line)
            return
        self.lines.append((len(self.turns), line))
        if line.startswith("goroutine ") and self.collections:
            self.collections[-1].add(entry_of(line))
            return
        match = COLLECTION.match(line)
        if match:
            self.collections.append(Collection(len(self.turns), match))
        elif STOPPED.match(line):
            self.stopped = int(STOPPED.match(line)[1])

    def read_turn(self, line):
        head, _, text = line.partition(": ")
        turn = turn_of(text)
        if turn is None or head != f"turn {len(self.turns) + 1}":
            raise Failure(f"the program wrote another line than that of turn {len(self.turns) + 1}: {line[:200]}")
        self.turns.append(turn)
