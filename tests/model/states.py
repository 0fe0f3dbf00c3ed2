"""All schedules in the model: a search without reduction, and what a reduced one keeps.

States are kept whole and compared exactly.
"""

from .machine import choices_of, dead_of, ending, goroutine_references, report_line, runnable, start, turn

# Instructions that read and change nothing but the frames of their goroutine; output is not compared. The goroutine
# after such a turn is computed once. This saves time alone: each turn of each goroutine is still taken in each state.
LOCAL = {"Int", "Bool", "Text", "Unit", "Nil", "Load", "Store", "Drop", "Neg", "Not", "Add", "Sub", "Mul", "Div", "Rem",
         "Eq", "Less", "AtMost", "Jump", "JumpIfNot", "Call", "Defer", "Print", "Panic"}

# So do these, if the goroutine has a frame after them.
RETURNS = {"Return", "ReturnValue"}
MOST_LOCAL_TURNS = 1_000


def reads_frames_alone(code, goroutine):
    """Whether the next turn of a goroutine that runs reads and changes its frames alone, or overflows the stack."""
    frames = goroutine[1]
    function, at, slots, operands, deferred, leaving, discards = frames[-1]
    keeps_frames = bool(deferred) or len(frames) > 1
    if leaving is not None:
        return keeps_frames
    name = code.functions[function].body[at][0]
    return name in LOCAL or (name in RETURNS and keeps_frames)


class Numbered:
    """Things with numbers: equal things have one number."""

    def __init__(self):
        self.things, self.numbers = [], {}

    def number(self, thing):
        found = self.numbers.setdefault(thing, len(self.things))
        if found == len(self.things):
            self.things.append(thing)
        return found


class Explored:
    """What all schedules come to. The search goes on from each state without a leak.

    `states` counts the states that were visited, and `complete` says whether the limit was kept. `leak` has the numbers
    of the turns of a shortest run that leaks. `leaks` has each line of a report, with the turns of a shortest run that
    shows it. `endings` has each way to end without a leak before.

    A visited state is (globals, objects, goroutines, next goroutine, next ticket, recorded ending), in which globals,
    objects and each goroutine are named by a number."""

    def __init__(self, code, most):
        self.code, self.most = code, most
        self.globals, self.objects, self.goroutines = Numbered(), Numbered(), Numbered()
        self.runs, self.after_local, self.shares, self.dead_by = [], [], [], {}
        self.sharing = Numbered()
        opening = self.named(start(code))
        self.came, self.queue = {opening: None}, [opening]
        self.leak, self.leaks, self.endings, self.complete = None, {}, set(), True
        for state in self.queue:
            self.visit(state)
            if not self.complete:
                break
        self.states = len(self.queue)

    def ends(self, how):
        return any(found[0] == how for found in self.endings)

    # names of states

    def named(self, state):
        goroutines = tuple([self.goroutine(thing) for thing in state[2]])
        return (self.globals.number(state[0]), self.objects.number(state[1]), goroutines) + state[3:]

    def goroutine(self, thing):
        """Returns the number of a goroutine; of a new one it is noted whether it runs, and what it refers to."""
        number = self.goroutines.number(thing)
        if number == len(self.runs):
            self.runs.append(thing[2] is None)
            waited = frozenset(wait[0] for wait in thing[2][2]) if thing[2] else None
            self.shares.append(self.sharing.number((waited, frozenset(goroutine_references(thing)))))
            self.after_local.append(None)
            self.after_local[number] = self.local_turn(thing)
        return number

    def full(self, name):
        goroutines = tuple([self.goroutines.things[number] for number in name[2]])
        return (self.globals.things[name[0]], self.objects.things[name[1]], goroutines) + name[3:]

    def local_turn(self, goroutine):
        """Returns the goroutine after its turn if that turn is local and it runs, else none."""
        if goroutine[2] is not None or not reads_frames_alone(self.code, goroutine):
            return None
        state, printed = turn(self.code, ((), (), (goroutine,), 0, 0, None), 0, 0)
        return None if state[5] else state[2][0]

    # the search

    def visit(self, state):
        how = self.ending(state)
        if how:
            self.endings.add(how)
            return
        dead = self.dead(state)
        if dead:
            self.note_leak(state, {report_line(goroutine) for goroutine in dead})
        else:
            self.expand(state)

    def note_leak(self, state, lines):
        if lines - self.leaks.keys():
            path = self.path(state)
            self.leak = self.leak or path
            for line in lines - self.leaks.keys():
                self.leaks[line] = path

    def ending(self, state):
        if state[5] is not None:
            return state[5]
        return None if any([self.runs[number] for number in state[2]]) else ("asleep",)

    def dead(self, state):
        """Returns the dead goroutines. Whether there are any is computed once for what they refer to."""
        if all([self.runs[number] for number in state[2]]):
            return ()
        key = (state[0], state[1], tuple([self.shares[number] for number in state[2]]))
        if key not in self.dead_by:
            self.dead_by[key] = bool(dead_of(self.full(state)))
        return dead_of(self.full(state)) if self.dead_by[key] else ()

    def expand(self, state):
        for number, after in self.turns(state):
            self.add(after, state, number)

    def turns(self, state):
        """Yields the number of each turn of a state, and the state after it."""
        goroutines = state[2]
        able = [index for index, number in enumerate(goroutines) if self.runs[number]]
        for place, index in enumerate(able):
            after = self.after_local[goroutines[index]]
            if after is None:
                yield from self.shared_turns(state, place, index, len(able))
                continue
            changed = goroutines[:index] + (self.goroutine(after),) + goroutines[index + 1:]
            yield place, (state[0], state[1], changed, state[3], state[4], state[5])

    def shared_turns(self, state, place, index, count):
        full = self.full(state)
        for choice in range(choices_of(self.code, full[2][index])):
            after, printed = turn(self.code, full, index, choice)
            yield choice * count + place, self.named(after)

    def successors(self, state):
        """Yields the state after each turn, if the program has not ended."""
        return iter(()) if self.ending(state) else (after for number, after in self.turns(state))

    def after_frame_locals(self, number):
        """Returns the goroutine of a number after all such turns, at most MOST_LOCAL_TURNS."""
        for _ in range(MOST_LOCAL_TURNS):
            after = self.after_local[number]
            if after is None:
                break
            number = self.goroutine(after)
        return number

    def add(self, state, parent, number):
        if state in self.came:
            return
        if len(self.queue) >= self.most:
            self.complete = False
            return
        self.came[state] = (parent, number)
        self.queue.append(state)

    def path(self, state):
        numbers = []
        while self.came[state] is not None:
            state, number = self.came[state]
            numbers.append(number)
        return numbers[::-1]


def plain_states(code):
    """Counts the states as `Explored` does, with neither names nor turns that are computed once."""
    queue = [start(code)]
    seen = set(queue)
    for state in queue:
        if ending(state) or dead_of(state):
            continue
        for index in runnable(state):
            for choice in range(choices_of(code, state[2][index])):
                after, printed = turn(code, state, index, choice)
                if after not in seen:
                    seen.add(after)
                    queue.append(after)
    return len(queue)


# ---- a program that never leaks

def always_ends(explored):
    """Whether no turns lead from a state to itself. Then each run of a finished search ends."""
    open_states, done = set(), set()
    opening = explored.queue[0]
    stack = [(opening, explored.successors(opening))]
    open_states.add(opening)
    while stack:
        state, after = stack[-1]
        following = next(after, None)
        if following is None:
            open_states.discard(state)
            done.add(state)
            stack.pop()
        elif following in open_states:
            return False
        elif following not in done:
            open_states.add(following)
            stack.append((following, explored.successors(following)))
    return True


class Settled:
    """The states that a search keeps if frame-local turns follow each turn, at most MOST_LOCAL_TURNS on end.

    Alike states count as one: they differ in the numbers of goroutines and in tickets alone."""

    def __init__(self, explored):
        self.explored, self.entries, self.looks = explored, Numbered(), {}
        queue = explored.queue[:1]
        seen = {self.key(queue[0])}
        for state in queue:
            for after in explored.successors(state):
                after = self.settle(after)
                key = self.key(after)
                if key not in seen:
                    seen.add(key)
                    queue.append(after)
        self.states = len(queue)

    def settle(self, state):
        explored = self.explored
        if explored.ending(state):
            return state
        goroutines = tuple([explored.after_frame_locals(number) for number in state[2]])
        return state[:2] + (goroutines,) + state[3:]

    def look(self, name):
        """Returns the number of an entry without number and ticket, the ticket, and the objects on which it waits."""
        if name not in self.looks:
            number, frames, mode, started = self.explored.goroutines.things[name]
            entry = self.entries.number((number == 1, frames, mode and mode[:3], started))
            waits = [wait[0] for wait in mode[2]] if mode else []
            self.looks[name] = (entry, mode[3] if mode else 0, waits)
        return self.looks[name]

    def key(self, state):
        """Returns what alike states share."""
        how = self.explored.ending(state)
        looks = [self.look(name) for name in state[2]]
        waiters = sorted((number, ticket, entry) for entry, ticket, waits in looks for number in waits)
        ending = how and how[:2] + how[3:]
        entries = tuple(sorted(entry for entry, ticket, waits in looks))
        return state[:2] + (entries, tuple((number, entry) for number, ticket, entry in waiters), ending)


# ---- a search by preemptions

class Searched:
    """A search by a rising number of preemptions, over the names of a finished search.

    A turn is a preemption if the goroutine of the last turn can go on and another one takes it. A visit is a state
    without an ending, and the goroutine that took the last turn. If `settles` is true, that goroutine takes its
    frame-local turns at once. `found` is the fewest preemptions of a run that leaks, or None, and `visits` counts the
    visits."""

    def __init__(self, explored, most, settles=True):
        self.explored, self.settles = explored, settles
        first = (explored.queue[0], None)
        self.seen, self.found, self.visits = {first}, None, 0
        here = [(first, False)]
        for preemptions in range(most + 1):
            later = self.level(here)
            self.visits = len(self.seen)
            if later is None:
                self.found = preemptions
            if not later:
                break
            here = [(visit, True) for visit in later]

    def level(self, here):
        """Looks at what needs no more preemptions. Returns the visits of which other turns do, or None at a leak."""
        later = []
        for visit, preempts in here:
            runner = self.place_of(visit)
            if runner is not None and not preempts:
                later.append(visit)
            for after in self.turns(visit, runner, preempts):
                if self.explored.ending(after[0]) or after in self.seen:
                    continue
                if self.explored.dead(after[0]):
                    return None
                self.seen.add(after)
                here.append((after, False))
        return later

    def able(self, state):
        """Returns the goroutines that can run, by their places among all."""
        return [index for index, name in enumerate(state[2]) if self.explored.runs[name]]

    def place_of(self, visit):
        """Returns the place among those that can run of the goroutine that took the last turn, or None."""
        state, runner = visit
        names = [self.number_of(state, index) for index in self.able(state)]
        return names.index(runner) if runner in names else None

    def number_of(self, state, index):
        """Returns the number of the goroutine at a place."""
        return self.explored.goroutines.things[state[2][index]][0]

    def turns(self, visit, runner, preempts):
        """Yields the visit after each turn: those of the last goroutine if it can go on, or those of the others."""
        able = self.able(visit[0])
        for number, after in self.explored.turns(visit[0]):
            place = number % len(able)
            if runner is None or (place == runner) != preempts:
                goroutine = self.number_of(visit[0], able[place])
                yield self.settled(after, goroutine), goroutine

    def settled(self, state, goroutine):
        """Returns a state after the frame-local turns of one goroutine."""
        if not self.settles or self.explored.ending(state):
            return state
        explored = self.explored
        names = tuple([explored.after_frame_locals(name) if explored.goroutines.things[name][0] == goroutine else name
                       for name in state[2]])
        return state[:2] + (names,) + state[3:]


def preemptions_of(code, numbers):
    """Counts the preemptions of a run by these numbers."""
    state, last, count = start(code), None, 0
    for number in numbers:
        able = runnable(state)
        index = able[number % len(able)]
        goroutine = state[2][index][0]
        running = [state[2][other][0] for other in able]
        count += last is not None and last != goroutine and last in running
        state, _ = turn(code, state, index, number // len(able))
        last = goroutine
    return count
