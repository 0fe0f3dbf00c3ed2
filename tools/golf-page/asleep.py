"""Finds out how each goroutine waits at the end of a run in which all are asleep, and who holds which lock.

A collection tells how a goroutine waits, and none comes after the last turn. So the run is repeated with one goroutine
more, which never takes a turn. A lock does not know its holder. So the run is repeated with a note before each
operation that locks: the notes tell which operations are on one lock, and the last one that got it is that of the
holder. Both runs must take the turns of the first one. tools/golf-lower/traced does the same for golf-go.
"""

import bisect
import re

from program import Failure, Programs
from story import MAIN
from traced import REACHED, DEAD, Trace
from words import MOST_BYTES_OF_A_WORD, MOST_TURNS

BEGIN = re.compile(r"(?m)^func main\(\) \{$")
LOCK = re.compile(r"(\s*)([A-Za-z_][\w.]*)\.(Lock|RLock)\(\)$")
OTHER_LOCK = re.compile(r"(?<!Un)(?<!RUn)\b(R?Lock)\(\)")
REFUSED = re.compile(r"refused: line (\d+): rule \d+$")
MARK = "‿same "
SET_UP = 7       # the turns of the declarations of notes and of the start of the goroutine
NOTE_TURNS = 10  # those of a call of note beside its operand
SAME_TURNS = 40  # more than those of one round of golf_same

NOTES = """
var golf_notes int
var golf_mutex []*sync.Mutex = make([]*sync.Mutex, {count})
var golf_rw []*sync.RWMutex = make([]*sync.RWMutex, {count})

func golf_note(x *sync.Mutex) {{
	golf_mutex[golf_notes] = x
	golf_notes = golf_notes + 1
}}

func golf_note_rw(x *sync.RWMutex) {{
	golf_rw[golf_notes] = x
	golf_notes = golf_notes + 1
}}

func golf_same(w int) {{
	for i := 0; i < golf_notes; i = i + 1 {{
		if golf_mutex[i] == golf_mutex[w] && golf_rw[i] == golf_rw[w] {{
			fmt.Println("‿same", w, i)
		}}
	}}
}}

func golf_awake() {{
{calls}}}
"""


class Lock:
    """An operation that locks: its goroutine, its line, its turns from 0 on, whether it reads, and the turn at which
    the goroutine got the lock, or None if it waits for it at the end."""

    def __init__(self, turn, place, reads):
        self.goroutine, self.line, self.reads = turn.goroutine, turn.line, reads
        self.first = self.last = self.got = place


class Sleepers:
    """What is found out: the kind of the wait of each goroutine by its number, and the lock of the holder."""

    def __init__(self, programs, trace, options):
        self.programs, self.trace = programs, trace
        self.text = programs.source.decode("utf-8", "replace")
        self.lines = self.text.split("\n")
        self.kinds, self.holders = {}, {}
        schedule = options.get("--schedule", "rotate")
        self.numbers = numbers_of(schedule, len(trace.turns))
        if self.numbers and len(BEGIN.findall(self.text)) == 1 and "golf_awake" not in self.text and self.find_kinds():
            self.find_holders()

    def find_kinds(self):
        """Finds how each goroutine waits. Returns whether the run could be repeated."""
        text = BEGIN.sub("func main() { go golf_awake();", self.text) + "\nfunc golf_awake() {\n}\n"
        word, wanted = self.again({})
        trace = self.repeated(text, "0," + word, ["--every", str(len(wanted) + 1), "--why"])
        if trace is None or self.without_notes(trace.turns, {}) != wanted:
            return False
        for _, line in trace.lines:
            match = REACHED.match(line) or DEAD.match(line)
            if match:
                self.kinds[renamed_back(int(match[1]))] = match[2]
        return True

    def find_holders(self):
        """Finds who holds the locks that goroutines wait for."""
        locks = self.locks()
        waiting = [place for place, lock in enumerate(locks) if lock.got is None]
        rw, same = {lock.line for lock in locks if lock.reads}, None
        for _ in range(len(self.lines) if waiting else 0):
            text = self.noted(rw, len(locks), waiting)
            same, wrong = self.same(text, locks, waiting) if text else (None, None)
            if wrong is None or wrong in rw or not self.operation(wrong):
                break
            rw.add(wrong)  # golf says that it is no sync.Mutex
        for place in waiting if same else []:
            holder = self.holder(locks, same.get(place, []))
            if holder:
                self.holders[locks[place].goroutine] = holder

    def operation(self, line):
        return LOCK.match(self.lines[line - 1]) if 0 < line <= len(self.lines) else None

    def locks(self):
        """Returns the operations of the run that lock, in the order in which they begin."""
        found, under_way = [], {}
        for place, turn in enumerate(self.trace.turns):
            lock = under_way.get(turn.goroutine)
            if lock and (lock.line != turn.line or lock.got is None):
                lock = under_way.pop(turn.goroutine) and None
            operation = self.operation(turn.line)
            if operation and not lock:
                lock = under_way[turn.goroutine] = Lock(turn, place, operation[3] == "RLock")
                found.append(lock)
            if lock:
                lock.last, lock.got = place, None if turn.blocks else place
            for number in turn.wakes:
                if number in under_way:
                    under_way[number].got = place
        return found

    def noted(self, rw, count, waiting):
        """Returns the text with its notes, or None if there are operations in another form."""
        lines = []
        for number, line in enumerate(self.lines, 1):
            match = LOCK.match(line)
            if not match and OTHER_LOCK.search(line):
                return None
            name = "golf_note_rw" if number in rw else "golf_note"
            lines.append(f"{match[1]}{name}({match[2]}); {line.lstrip()}" if match else line)
        text = BEGIN.sub("func main() { go golf_awake();", "\n".join(lines))
        if 'import "fmt"' not in text:
            text = text.replace('import "sync"', 'import "fmt"; import "sync"', 1)
        return text + NOTES.format(count=count, calls="".join(f"\tgolf_same({place})\n" for place in waiting))

    def same(self, text, locks, of):
        """Returns the operations on the lock of each of these, or None, and a line that golf refuses, or None."""
        added = {}
        for lock in locks:
            operands = sum(turn.goroutine == lock.goroutine for turn in self.trace.turns[lock.first:lock.last])
            added[lock.first] = NOTE_TURNS + operands
        word, wanted = self.again(added)
        word = "0," * SET_UP + word + ",0" * (SAME_TURNS * len(of) * (len(locks) + 1))
        trace = self.repeated(text, word, [])
        if trace is None:
            return None, None
        refused = REFUSED.match(trace.lines[0][1]) if trace.lines else None
        if refused or self.without_notes(trace.turns, added) != wanted:
            return None, int(refused[1]) if refused else None
        found = {}
        for line in b"".join(piece for _, piece in trace.pieces).decode("utf-8", "replace").split("\n"):
            if line.startswith(MARK):
                place, other = line.removeprefix(MARK).split(" ")
                found.setdefault(int(place), []).append(int(other))
        return found, None

    def holder(self, locks, same):
        """Returns the operation of the holder, if these are all operations on its lock; None if it is not known."""
        last, readers = None, set()
        for lock in sorted((locks[place] for place in same if locks[place].got is not None), key=lambda lock: lock.got):
            readers = readers | {lock.goroutine} if lock.reads else set()
            last = lock
        return None if last is None or len(readers) > 1 or self.woken_after(last.got) else last

    def woken_after(self, place):
        """Whether a goroutine may have got a lock back after a turn, since it has waited for a condition."""
        waits, conditions = {}, "sync.NewCond(" in self.text
        for at, turn in enumerate(self.trace.turns if conditions else []):
            if turn.blocks:
                waits[turn.goroutine] = ".Wait()" in self.lines[turn.line - 1]
            if at > place and any(waits.get(number) for number in turn.wakes):
                return True
        return False

    def again(self, added):
        """Returns the numbers that take the turns again while one goroutine more can run, whose number is 2, and what
        these turns should be. Before turn K its goroutine takes added[K] more."""
        word, wanted, then, now = [], [], [MAIN], [MAIN, 2]
        for place, turn in enumerate(self.trace.turns):
            other = turn._replace(goroutine=renamed(turn.goroutine), starts=turn.starts and renamed(turn.starts),
                                  wakes=tuple(map(renamed, turn.wakes)))
            number = now.index(other.goroutine)
            word += [number] * added.get(place, 0)
            selects = "select" in self.lines[turn.line - 1]
            word.append(number + (self.numbers[place] // len(then) * len(now) if selects else 0))
            wanted.append(other)
            then, now = after(then, turn), after(now, other)
        return ",".join(map(str, word)), wanted

    def repeated(self, text, word, words):
        """Returns a run of a text by these numbers, or None if they are too many."""
        if len(word) > MOST_BYTES_OF_A_WORD or word.count(",") >= MOST_TURNS:
            return None
        programs = Programs(self.programs.golf, self.programs.explore, text.encode())
        return Trace(programs.trace_again(["--schedule", f"choices:{word}", *words]))

    def without_notes(self, turns, added):
        """Returns the turns of a repeated run without those that were added before a turn."""
        start = next((place for place, turn in enumerate(turns) if turn.starts == 2), None)
        if start is None:
            return None
        left = [turn for turn in turns[:start] if turn.line <= len(self.lines)] + turns[start + 1:]
        kept, at = [], 0
        for place in range(len(self.trace.turns)):
            at += added.get(place, 0)
            kept += left[at:at + 1]
            at += 1
        return kept


def sleepers_of(programs, trace, options):
    """Returns the kinds of waits and the holders by goroutine. There are none of a run that ended otherwise, and of one
    that could not be repeated."""
    if not trace.asleep:
        return {}, {}
    try:
        found = Sleepers(programs, trace, options)
    except Failure:
        return {}, {}
    return found.kinds, found.holders


def numbers_of(schedule, count):
    """Returns the numbers of a schedule, as docs/LANGUAGE.md says, or None if there are fewer."""
    kind, _, value = schedule.partition(":")
    if kind == "rotate":
        return list(range(count))
    if kind == "choices":
        numbers = [int(number) for number in value.split(",")]
        return numbers if len(numbers) >= count else None
    numbers, last = [], int(value)
    for _ in range(count):
        last = (last * 6364136223846793005 + 1442695040888963407) % 2 ** 64
        numbers.append(last >> 33)
    return numbers


def after(ready, turn):
    """Returns who can run after a turn, in rising order."""
    ready = [number for number in ready if number != turn.goroutine or not (turn.blocks or turn.ends)]
    for number in (turn.starts, *turn.wakes):
        if number is not None and number not in ready:
            bisect.insort(ready, number)
    return ready


def renamed(number):
    """Returns the number of a goroutine in a run with one more."""
    return number + 1 if number >= 2 else number


def renamed_back(number):
    return number - 1 if number > 2 else number
