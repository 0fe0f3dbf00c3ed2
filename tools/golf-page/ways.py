"""Finds at which moments which goroutine is dead, and by which chain of objects the others are reached.

Only a collection tells that. In a file that sets no finalisers an added collection changes nothing. So one run with a
collection after each K-th turn tells the reasons at these moments. In a file that sets finalisers a collection queues
them, which changes what follows. So there each moment has a run of its own, which is stopped at it: `--turns N
--every N` adds one collection, after the last turn.
"""

import concurrent.futures
import itertools
import os

from program import Failure
from traced import Trace
from words import written

LOOKS = 2000     # the most added collections of a run that is too long for one after each turn
LINES = 500_000  # the most lines of the run with added collections
CUTS = 500       # the most runs that are stopped at a moment
BATCH = 16       # so many of them are begun before it is seen what they tell


def add_ways(story, trace, programs, options, finalisers):
    """Adds to the story what collections tell. Returns the sentence that says after which turns they were added."""
    bare = {name: value for name,
            value in options.items() if name not in ("--every", "--recover", "--why", "--markers")}
    if not finalisers:
        step = step_of(story)
        look_at_all(story, looked(trace, programs, bare, step))
        if step > 1 and trace.stopped is None:
            look_at(story, story.last - 1, cut_at(programs, bare, story.last - 1))
        return f"one run with a collection added after {'each turn' if step == 1 else f'every {step:,} turns'}"
    if "--every" in options:
        look_at_all(story, Trace(programs.trace_again(written({**options, "--why": None}))))
        return "the collections of the run itself, since the file sets finalisers"
    count = look_at_cuts(story, programs, bare)
    return f"{count:,} runs that are each stopped at a moment, since the file sets finalisers"


def look_at_all(story, look):
    """Takes the collections of a run."""
    for moment, collections in itertools.groupby(look.collections, key=lambda collection: collection.turn):
        look_at(story, moment, list(collections))


def look_at(story, moment, collections):
    """Takes collections after which it is known who is dead. The last of them tells who is reached."""
    story.look(moment, [entry for each in collections for entry in each.dead], collections[-1].reached)


# ---- files without finalisers


def step_of(story):
    """Returns the number of turns between two added collections. Each of them has two lines, and one for each blocked
    goroutine; each turn has one."""
    lines = sum(3 + len(blocked) for moment, blocked in story.waiting())
    return 1 if lines <= LINES else max(-(-story.last // LOOKS), -(-lines // LINES))


def looked(trace, programs, words, step):
    """Returns the run with a collection after each `step`-th turn. Its turns must be those of the run itself."""
    look = Trace(programs.trace_again(written({**words, "--every": str(step), "--why": None})))
    if look.turns != trace.turns:
        raise Failure("the run with added collections takes other turns than the run without them")
    return look


# ---- files with finalisers


def look_at_cuts(story, programs, words):
    """Looks by runs that are stopped. A moment is left out if each blocked goroutine is dead there. Returns the
    number of the runs."""
    left, count = cut_moments(story), 0
    with concurrent.futures.ThreadPoolExecutor(os.cpu_count() or 1) as pool:
        while left:
            batch = [moment for moment, blocked in left if not all_dead(story, moment, blocked)][:BATCH]
            left = [entry for entry in left if batch and entry[0] > batch[-1]]
            for moment, collections in zip(batch, pool.map(lambda turn: cut_at(programs, words, turn), batch)):
                look_at(story, moment, collections)
                count += 1
    return count


def cut_moments(story):
    """Returns the moments at which a goroutine is blocked, with the blocked goroutines. If they are too many, those
    come first at which a goroutine has blocked, and of all each K-th."""
    moments, before = [], frozenset()
    for moment, blocked in story.waiting():
        if blocked:
            moments.append((moment, blocked, blocked is not before and not blocked <= before))
        before = blocked
    if len(moments) > CUTS:
        step = -(-2 * len(moments) // CUTS)
        fresh = [entry for entry in moments if entry[2]][:CUTS // 2]
        moments = sorted({*fresh, *moments[::step]}, key=lambda entry: entry[0])
    return [(moment, blocked) for moment, blocked, fresh in moments]


def all_dead(story, moment, blocked):
    return all(story.goroutines[number].dead is not None and story.goroutines[number].dead <= moment
               for number in blocked)


def cut_at(programs, words, turn):
    """Returns the collections of a run that is stopped after this turn. One is added there."""
    cut = Trace(programs.trace_again(written({**words, "--turns": str(turn), "--every": str(turn), "--why": None})))
    if not cut.collections or cut.collections[-1].turn != turn:
        raise Failure(f"the run that is stopped after turn {turn} has no collection there")
    return cut.collections
