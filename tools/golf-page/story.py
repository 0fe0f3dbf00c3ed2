"""What the goroutines of a run do over its turns: when each is started, blocks, is woken, is dead and ends.

A moment is the state after a turn. Moment 0 is the state before the first turn. A wait begins at the moment at which a
goroutine blocked. It ends at the moment at which it was woken: there it can run again.
"""

import bisect

from program import Failure

FINALISERS = 0
MAIN = 1


class Wait:
    """One wait of a goroutine: its moments (no end: it lasts to the end of the run), its line, its kind if that is
    known, and (moment, chain) at each change of the chain by which the goroutine is reached."""

    def __init__(self, begin, line):
        self.begin, self.line = begin, line
        self.end = self.kind = None
        self.chains = []


class Goroutine:
    """One goroutine with its waits. `started` is the line of its start, if that is known: that of goroutine 1 is told
    if it is dead. `dead` is the first moment at which it is known to be dead. `reported` and `removed` are places in
    the list of the collections of the run."""

    def __init__(self, number, begin, started):
        self.number, self.begin, self.started = number, begin, started
        self.first_line = self.end = self.dead = self.reported = self.removed = None
        self.waits, self.begins = [], []

    def block(self, moment, line):
        self.waits.append(Wait(moment, line))
        self.begins.append(moment)

    def wait_at(self, moment, line):
        """Returns the wait that the goroutine has at a moment. It must be at this line."""
        at = bisect.bisect_right(self.begins, moment) - 1
        wait = self.waits[at] if at >= 0 else None
        if wait is None or (wait.end is not None and moment >= wait.end) or wait.line != line:
            raise Failure(f"the program tells two things about goroutine {self.number} after turn {moment}")
        return wait


class Story:
    """The goroutines of a run by number, and what collections told of them."""

    def __init__(self, trace):
        self.last = len(trace.turns)
        self.goroutines = {MAIN: Goroutine(MAIN, 0, None)}
        self.looks = []      # the moments after which a collection told the reasons
        self.unremoved = []  # the goroutines that are reported and not removed
        for moment, turn in enumerate(trace.turns, 1):
            self.take(moment, turn)
        for place, collection in enumerate(trace.collections):
            self.report(place, collection)

    def take(self, moment, turn):
        """Takes one turn of the run."""
        if turn.goroutine == FINALISERS and FINALISERS not in self.goroutines:
            self.goroutines[FINALISERS] = Goroutine(FINALISERS, moment - 1, None)
        goroutine = self.goroutines[turn.goroutine]
        if goroutine.first_line is None:
            goroutine.first_line = turn.line
        if turn.starts is not None:
            self.goroutines[turn.starts] = Goroutine(turn.starts, moment, turn.line)
        if turn.blocks:
            goroutine.block(moment, turn.line)
        if turn.ends:
            goroutine.end = moment
        for number in turn.wakes:
            self.goroutines[number].waits[-1].end = moment

    def report(self, place, collection):
        """Takes a collection of the run itself. If it keeps no dead goroutine, it removes all of them."""
        for entry in collection.dead:
            goroutine = self.mark_dead(collection.turn, entry)
            goroutine.reported = place
            self.unremoved.append(goroutine)
        if collection.reclaimed and not collection.kept:
            for goroutine in self.unremoved:
                goroutine.removed = place
            self.unremoved = []

    def look(self, moment, dead, reached):
        """Takes what a collection after this moment told: the dead, and why the other blocked goroutines are live."""
        self.looks.append(moment)
        for entry in dead:
            self.mark_dead(moment, entry)
        for entry in reached:
            wait = self.goroutines[entry.goroutine].wait_at(moment, entry.line)
            wait.kind = entry.wait
            if not wait.chains or wait.chains[-1][1] != entry.chain:
                wait.chains.append((moment, entry.chain))

    def mark_dead(self, moment, entry):
        goroutine = self.goroutines[entry.goroutine]
        goroutine.wait_at(moment, entry.line).kind = entry.wait
        goroutine.started = entry.started
        goroutine.dead = moment if goroutine.dead is None else min(goroutine.dead, moment)
        return goroutine

    def waiting(self):
        """Yields each moment but the last with the goroutines that are blocked there, except for goroutine 0."""
        changes = [[] for _ in range(self.last + 1)]
        for number, goroutine in self.goroutines.items():
            for wait in goroutine.waits if number != FINALISERS else []:
                changes[wait.begin].append((number, True))
                if wait.end is not None:
                    changes[wait.end].append((number, False))
        blocked = frozenset()
        for moment in range(self.last):
            if changes[moment]:
                blocked = blocked.union(number for number, begins in changes[moment] if begins).difference(
                    number for number, begins in changes[moment] if not begins)
            yield moment, blocked
