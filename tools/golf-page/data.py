"""The data that the script of a page reads: JSON, small enough for the page.

    last        the number of turns
    ended       whether the run ended; asleep: because all goroutines were asleep
    fault       [goroutine, spot] of a panic or fatal error, or null
    who, spot   for each turn its goroutine, and the spot of its instruction
    spots       [row, column] of each spot: spot 1 is the first of them. The column is 0 if a line has no columns.
    generated   [function, spot] of each spot in generated code: spot -1 is the first of them.
                Its spot is the one at which the goroutine was before, or 0.
    goroutines  [number, function, spot of its start or 0, begin, end, dead, reported, removed, waits] of each
                a wait is [begin, end, spot, kind, changes]; changes are moment, chain, moment, chain ..
    kinds       the kinds of waits
    chains      the chains: objects are positive, goroutines negative
    collections [number, turn] of each
    divided     the numbers of the collections that removed some of the dead and kept some
    looks       the moments at which the reasons are known, or null if these are all but the last of a run that ended
    printed     the turns that printed something
    files       [name, number of its first row less 1] of each file
    left_out    how many goroutines are left out

A number that is not known, or not there, is -1.
"""

import json

from story import FINALISERS, MAIN

MOST_GOROUTINES = 5000
MOST_COLLECTIONS = 5000
MOST_BYTES = 1_700_000


def data_of(run):
    """Returns what the script of the page reads of a run."""
    story, trace, places = run.story, run.trace, run.places
    fault = None if run.exits else trace.fault
    kinds, chains, spots = Numbered(), Numbered(), Spots(places)
    turns = spots.of_turns(trace.turns)
    data = {
        "last": story.last, "ended": trace.stopped is None, "asleep": trace.asleep,
        "fault": [int(fault[3]), spots.of(int(fault[4])) or turns[-1]] if fault else None,
        "who": [turn.goroutine for turn in trace.turns],
        "spot": turns,
        "collections": [[number, each.turn] for number, each in enumerate(trace.collections, 1)
                        if each.dead or number <= MOST_COLLECTIONS],
        "divided": [number for number, each in enumerate(trace.collections, 1) if each.reclaimed and each.kept],
        "looks": None if set(story.looks).issuperset(range(1, story.last)) else story.looks,
        "printed": sorted({turn for turn, piece in trace.pieces if turn is not None}),
        "files": places.files,
    }
    shown = shown_goroutines(story)
    data["left_out"] = len(story.goroutines) - len(shown)
    data["goroutines"] = [entry_of(each, spots, turns, kinds, chains) for each in shown]
    data["kinds"] = list(kinds.numbers)
    data["chains"] = [list(chain) for chain in chains.numbers]
    data["spots"], data["generated"] = list(spots.numbers.numbers), list(spots.generated.numbers)
    return fitted(data)


class Numbered:
    """Things with numbers from 0. Equal things have one number, and -1 stands for None."""

    def __init__(self):
        self.numbers = {}

    def of(self, thing):
        return -1 if thing is None else self.numbers.setdefault(thing, len(self.numbers))


def known(number):
    return -1 if number is None else number


def shown_goroutines(story):
    """Returns the goroutines of a page by rising number. If they are too many, those come first that are dead or wait
    at the end."""
    def rank(goroutine):
        waits_on = bool(goroutine.waits) and goroutine.waits[-1].end is None
        return (goroutine.number not in (MAIN, FINALISERS), goroutine.dead is None, not waits_on, goroutine.number)
    first = sorted(story.goroutines.values(), key=rank)[:MOST_GOROUTINES]
    return sorted(first, key=lambda goroutine: goroutine.number)


class Spots:
    """The spots of a run: the places of its lines as numbers."""

    def __init__(self, places):
        self.places = places
        self.numbers, self.generated = Numbered(), Numbered()

    def of(self, line):
        """Returns the spot of a line, 0 if it is in generated code."""
        row = self.places.row(line)
        return self.numbers.of((row, self.places.column(line))) + 1 if row else 0

    def of_turns(self, turns):
        """Returns the spot of each turn."""
        spots, before = [], {}
        for turn in turns:
            spot = self.of(turn.line)
            if spot:
                before[turn.goroutine] = spot
            function = "" if spot else self.places.function(turn.line)
            spots.append(spot or -1 - self.generated.of((function, before.get(turn.goroutine, 0))))
        return spots


def entry_of(goroutine, spots, turns, kinds, chains):
    waits = []
    for wait in goroutine.waits:
        changes = [number for moment, chain in wait.chains for number in (moment, chains.of(chain))]
        waits.append([wait.begin, known(wait.end), turns[wait.begin - 1], kinds.of(wait.kind), changes])
    reported, removed = (known(None if place is None else place + 1)
                         for place in (goroutine.reported, goroutine.removed))
    started = 0
    if goroutine.started is not None:
        started = turns[goroutine.begin - 1] if goroutine.begin else spots.of(goroutine.started)
    return [goroutine.number, name_of(goroutine, spots.places), started, goroutine.begin, known(goroutine.end),
            known(goroutine.dead), reported, removed, waits]


def name_of(goroutine, places):
    """Returns the name of the function that a goroutine was started with."""
    if goroutine.number in (MAIN, FINALISERS):
        return "main" if goroutine.number == MAIN else "finalisers"
    if goroutine.first_line not in (None, goroutine.started):
        return places.function(goroutine.first_line)
    return places.call(goroutine.started) or places.function(goroutine.started)


def embedded(data):
    """Returns JSON that can be the text of a script element."""
    text = json.dumps(data, separators=(",", ":"), ensure_ascii=True)
    return text.replace("<", "\\u003c").replace(">", "\\u003e").replace("&", "\\u0026")


def fitted(data):
    """Returns the data, with fewer looked-at moments if it has too many bytes."""
    step = 1
    while len(embedded(data)) > MOST_BYTES and step <= data["last"]:
        step *= 2
        data["looks"] = [moment for moment in data["looks"] or range(1, data["last"] + 1) if moment % step == 0]
        for goroutine in data["goroutines"]:
            for wait in goroutine[-1]:
                wait[-1] = thinned(wait[-1], data["last"] + 1 if wait[1] < 0 else wait[1], step)
        drop_unused_chains(data)
    return data


def thinned(changes, end, step):
    """Returns the changes that are seen at a multiple of the step. The last one is seen until the end."""
    kept = []
    for at in range(0, len(changes), 2):
        until = changes[at + 2] if at + 2 < len(changes) else end
        if -(-changes[at] // step) * step < until:
            kept += changes[at:at + 2]
    return kept


def drop_unused_chains(data):
    chains = Numbered()
    for goroutine in data["goroutines"]:
        for wait in goroutine[-1]:
            wait[-1][1::2] = [chains.of(tuple(data["chains"][number])) for number in wait[-1][1::2]]
    data["chains"] = [list(chain) for chain in chains.numbers]
