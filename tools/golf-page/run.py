"""One run with all that a page tells of it."""

import re

from asleep import sleepers_of
from program import ERRORS, Failure
from story import Story
from traced import Trace
from ways import add_ways
from words import of_answer, of_history, of_page, options_of, wrong_word

ACCEPTED = (0, 1, 2, 3)
REFUSED = 4
USAGE = 5


class Run:
    """A run: its trace, the story of its goroutines, what the file printed, its last line with the places of the
    page, and its status. `how` says where the reasons are from. `kinds` and `holders` tell by goroutine how it waits
    where all are asleep, and which operation of the holder has locked what it waits for."""

    def __init__(self, programs, places, words):
        self.programs, self.places = programs, places
        self.words = of_page(of_answer(words))
        self.options = options_of(self.words)
        self.trace = self.by_threads() if "--threads" in self.options else self.by_words(self.words)
        self.story = Story(self.trace)
        places.follow(self.trace.turns)
        self.printed = places.printed(self.trace.pieces)
        self.tail = places.told_tail(self.trace.tail, self.printed)
        self.exits = self.printed.exit is not None and bool(self.trace.tail)
        self.status = self.printed.exit if self.exits else self.trace.status
        self.how = ""
        self.kinds, self.holders = {}, {}
        if self.accepted:
            if not places.finalisers:
                self.kinds, self.holders = sleepers_of(programs, self.trace, self.repeated)
            self.how = add_ways(self.story, self.trace, programs, self.repeated, places.finalisers)

    @property
    def accepted(self):
        return self.trace.status in ACCEPTED

    @property
    def refusal(self):
        """The line that refuses the file, or an empty text."""
        return self.trace.lines[0][1] if self.trace.status == REFUSED and self.trace.lines else ""

    def by_words(self, words):
        """Takes a run, and notes the options that repeat it."""
        self.repeated = options_of(words)
        trace = Trace(self.programs.trace(words))
        if trace.status == USAGE:
            raise Failure(wrong_word(words), USAGE)
        return trace

    def by_threads(self):
        """Takes a run by threads, and repeats it by the numbers of its turns."""
        ran = self.programs.run(self.words)
        if ran.status == USAGE:
            raise Failure(wrong_word(self.words), USAGE)
        history = re.search(r"(?m)^history: ([\d,]+)$", ran.text_of(ERRORS).decode("utf-8", "replace"))
        return self.by_words(of_history(history[1]) if history else [])
