"""The machine of the model: states, turns, dead goroutines, and one run.

One turn is one instruction of one goroutine, or one step of a frame that is left, as in docs/LANGUAGE.md ("How a file
runs"). Output is no part of a state. What a turn changes follows docs/LANGUAGE.md and the definitions of `golf_model`;
no code of the program is used.

Goroutine 0 runs finalisers, of which the model has none. So it never runs, and is in no state.
"""

from .code import FALSE, TRUE, UNIT

# A frame is (function, at, slots, operands, deferred, leaving, discards), a goroutine (number, frames, mode, started).
# Operands and frames have the top one last. The mode is none, or (kind, line, waits, ticket); a wait is (object, side,
# value, target, with_ok). A frame is left by none, ('return', value) or ('unwind', kind, line).
NO_VALUE = "no value"
MOST_FRAMES = 10_000
FATAL = ("sync: unlock of unlocked mutex", "stack overflow")
NIL_POINTER = "runtime error: invalid memory address or nil pointer dereference"
WORD = 1 << 64


class Actor:
    """The goroutine whose turn it is, with its innermost frame."""
    __slots__ = ("index", "number", "callers", "started", "line", "function", "at", "slots", "operands", "deferred",
                 "leaving", "discards")

    def __init__(self, index, goroutine):
        self.index = index
        self.number, frames, mode, self.started = goroutine
        self.callers = frames[:-1]
        (self.function, self.at, self.slots, self.operands, self.deferred, self.leaving, self.discards) = frames[-1]
        self.line = 0

    def frame(self, at, operands):
        return (self.function, at, self.slots, operands, self.deferred, None, self.discards)


class World:
    """A state that can be changed."""
    __slots__ = ("code", "globals", "objects", "goroutines", "next_goroutine", "next_ticket", "recorded", "printed")

    def __init__(self, code, state):
        self.code = code
        self.globals, self.objects, self.goroutines, self.next_goroutine, self.next_ticket, self.recorded = state
        self.printed = None

    def state(self):
        return (self.globals, self.objects, self.goroutines, self.next_goroutine, self.next_ticket, self.recorded)

    # changes

    def become(self, index, goroutine):
        self.goroutines = self.goroutines[:index] + (goroutine,) + self.goroutines[index + 1:]

    def replace(self, number, thing):
        self.objects = self.objects[:number - 1] + (thing,) + self.objects[number:]

    def make(self, thing):
        """Returns the reference to a new object."""
        self.objects += (thing,)
        return (len(self.objects),)

    def stand(self, actor, frame):
        self.become(actor.index, (actor.number, actor.callers + (frame,), None, actor.started))

    def go_on(self, actor, operands):
        self.stand(actor, actor.frame(actor.at + 1, operands))

    def panic(self, actor, kind):
        frame = actor.frame(actor.at, ())
        self.stand(actor, unwinding(frame, kind, actor.line))

    def die(self, actor, kind):
        self.recorded = ("panicked", kind, actor.number, actor.line)

    def block(self, actor, operands, kind, waits):
        frames = actor.callers + (actor.frame(actor.at + 1, operands),)
        self.become(actor.index, (actor.number, frames, (kind, actor.line, waits, self.next_ticket), actor.started))
        self.next_ticket += 1

    def spawn(self, frame, line):
        self.goroutines += ((self.next_goroutine, (frame,), None, line),)
        self.next_goroutine += 1

    def leave(self, index):
        self.goroutines = self.goroutines[:index] + self.goroutines[index + 1:]

    # waiters

    def waiters(self, number, side):
        """Returns (ticket, index, wait) of each goroutine that waits there, by rising ticket."""
        found = []
        for index, goroutine in enumerate(self.goroutines):
            mode = goroutine[2]
            if mode is not None:
                for wait in mode[2]:
                    if wait[0] == number and wait[1] == side:
                        found.append((mode[3], index, wait))
                        break
        found.sort(key=lambda waiter: waiter[0])
        return found

    def first(self, number, side):
        found = self.waiters(number, side)
        return found[0] if found else None

    def serve(self, waiter, values):
        """The waiter goes on, with these values on top of its operands."""
        ticket, index, wait = waiter
        number, frames, mode, started = self.goroutines[index]
        function, at, slots, operands, deferred, leaving, discards = frames[-1]
        at = at if wait[3] is None else wait[3]
        frame = (function, at, slots, operands + values, deferred, leaving, discards)
        self.become(index, (number, frames[:-1] + (frame,), None, started))

    def release(self, index):
        number, frames, mode, started = self.goroutines[index]
        self.become(index, (number, frames, None, started))

    def close_for(self, index, wait, zero):
        """A channel was closed on which this goroutine waits."""
        number, frames, mode, started = self.goroutines[index]
        if wait[1] == "receive":
            self.serve((mode[3], index, wait), received(wait[4], zero, FALSE))
        else:
            frame = unwinding(frames[-1], "send on closed channel", mode[1])
            self.become(index, (number, frames[:-1] + (frame,), None, started))

    def pass_on(self, index, mutex):
        """A goroutine goes from a condition to its mutex."""
        number, frames, mode, started = self.goroutines[index]
        if self.objects[mutex - 1][1]:
            wait = (mutex, "lock", None, None, False)
            self.become(index, (number, frames, (mode[0], mode[1], (wait,), self.next_ticket), started))
            self.next_ticket += 1
        else:
            self.replace(mutex, ("mutex", True))
            self.release(index)

    def hand_over(self, mutex):
        """A mutex goes to its first waiter, or is unlocked."""
        waiter = self.first(mutex, "lock")
        if waiter:
            self.release(waiter[1])
        else:
            self.replace(mutex, ("mutex", False))


def unwinding(frame, kind, line):
    return frame[:3] + ((), frame[4], ("unwind", kind, line), frame[6])


def received(with_ok, value, sent):
    return (value, sent) if with_ok else (value,)


def opened(code, number, arguments, discards):
    """Returns a frame at the first instruction of a function."""
    function = code.functions[number]
    slots = arguments + (0,) * (function.slots - len(arguments))
    return (number, 0, cleared(slots, function.needed[0]), (), (), None, discards)


def cleared(slots, needed):
    if len(needed) == len(slots):
        return slots
    return tuple([value if slot in needed else 0 for slot, value in enumerate(slots)])


def start(code):
    """Returns the opening state."""
    first = (1, (opened(code, 0, (), True),), None, code.main_line)
    return (code.globals_at_start, (), (first,), 2, 0, None)


# ---- what ends a run

def runnable(state):
    return [index for index, goroutine in enumerate(state[2]) if goroutine[2] is None]


def ending(state):
    """Returns ('returned',), ('panicked', kind, goroutine, line), ('asleep',) or none."""
    if state[5] is not None:
        return state[5]
    for goroutine in state[2]:
        if goroutine[2] is None:
            return None
    return ("asleep",)


# ---- instructions: each is a function of the world, the actor and the argument

def pushes(world, actor, value):
    world.go_on(actor, actor.operands + (value,))


def pushes_unit(world, actor, argument):
    pushes(world, actor, UNIT)


def pushes_nil(world, actor, argument):
    pushes(world, actor, None)


def loads(world, actor, slot):
    pushes(world, actor, actor.slots[slot])


def stores(world, actor, slot):
    actor.slots = actor.slots[:slot] + (actor.operands[-1],) + actor.slots[slot + 1:]
    world.go_on(actor, actor.operands[:-1])


def loads_global(world, actor, number):
    pushes(world, actor, world.globals[number])


def stores_global(world, actor, number):
    world.globals = world.globals[:number] + (actor.operands[-1],) + world.globals[number + 1:]
    world.go_on(actor, actor.operands[:-1])


def drops(world, actor, argument):
    world.go_on(actor, actor.operands[:-1])


def wrapped(number):
    number %= WORD
    return number - WORD if number >= WORD // 2 else number


def negates(world, actor, argument):
    world.go_on(actor, actor.operands[:-1] + (wrapped(-actor.operands[-1]),))


def inverts(world, actor, argument):
    world.go_on(actor, actor.operands[:-1] + (truth(actor.operands[-1] == FALSE),))


def truth(holds):
    return TRUE if holds else FALSE


def calculates(operation):
    def act(world, actor, argument):
        left, right = actor.operands[-2:]
        world.go_on(actor, actor.operands[:-2] + (operation(left, right),))
    return act


def divides(operation):
    def act(world, actor, argument):
        left, right = actor.operands[-2:]
        if right == 0:
            world.panic(actor, "runtime error: integer divide by zero")
        else:
            world.go_on(actor, actor.operands[:-2] + (wrapped(operation(left, right)),))
    return act


def quotient(left, right):
    size = abs(left) // abs(right)
    return size if (left < 0) == (right < 0) else -size


def remainder(left, right):
    return left - right * quotient(left, right)


def jumps(world, actor, target):
    world.stand(actor, actor.frame(target, actor.operands))


def jumps_unless(world, actor, target):
    at = target if actor.operands[-1] == FALSE else actor.at + 1
    world.stand(actor, actor.frame(at, actor.operands[:-1]))


def makes_channel(world, actor, zero):
    size = actor.operands[-1]
    if size < 0 or size > 65_536:
        world.panic(actor, "makechan: size out of range")
    else:
        world.go_on(actor, actor.operands[:-1] + (world.make(("chan", size, zero, False, ())),))


def makes_mutex(world, actor, argument):
    pushes(world, actor, world.make(("mutex", False)))


def makes_group(world, actor, argument):
    pushes(world, actor, world.make(("group", 0)))


def makes_condition(world, actor, argument):
    world.go_on(actor, actor.operands[:-1] + (world.make(("cond", actor.operands[-1])),))


def measures(world, actor, argument):
    channel = actor.operands[-1]
    count = 0 if channel is None else len(world.objects[channel[0] - 1][4])
    world.go_on(actor, actor.operands[:-1] + (count,))


def sends(world, actor, argument):
    channel, value = actor.operands[-2:]
    rest = actor.operands[:-2]
    if channel is None:
        world.block(actor, rest, "chan send (nil chan)", ())
    else:
        sends_on(world, actor, channel[0], value, actor.at + 1, rest)


def sends_on(world, actor, number, value, at, rest):
    kind, capacity, zero, closed, buffer = world.objects[number - 1]
    if closed:
        world.panic(actor, "send on closed channel")
        return
    waiter = world.first(number, "receive")
    if waiter:
        world.stand(actor, actor.frame(at, rest))
        world.serve(waiter, received(waiter[2][4], value, TRUE))
    elif len(buffer) < capacity:
        world.replace(number, (kind, capacity, zero, closed, buffer + (value,)))
        world.stand(actor, actor.frame(at, rest))
    else:
        world.block(actor, rest, "chan send", ((number, "send", value, None, False),))


def receives(with_ok):
    def act(world, actor, argument):
        channel, rest = actor.operands[-1], actor.operands[:-1]
        if channel is None:
            world.block(actor, rest, "chan receive (nil chan)", ())
        else:
            receives_on(world, actor, channel[0], with_ok, actor.at + 1, rest)
    return act


def receives_on(world, actor, number, with_ok, at, rest):
    kind, capacity, zero, closed, buffer = world.objects[number - 1]
    waiter = world.first(number, "send")
    if buffer:
        more = (waiter[2][2],) if waiter else ()
        world.replace(number, (kind, capacity, zero, closed, buffer[1:] + more))
        world.stand(actor, actor.frame(at, rest + received(with_ok, buffer[0], TRUE)))
    elif waiter:
        world.stand(actor, actor.frame(at, rest + received(with_ok, waiter[2][2], TRUE)))
    elif closed:
        world.stand(actor, actor.frame(at, rest + received(with_ok, zero, FALSE)))
    else:
        world.block(actor, rest, "chan receive", ((number, "receive", None, None, with_ok),))
    if waiter:
        world.serve(waiter, ())


def closes(world, actor, argument):
    channel, rest = actor.operands[-1], actor.operands[:-1]
    if channel is None:
        world.panic(actor, "close of nil channel")
        return
    kind, capacity, zero, closed, buffer = world.objects[channel[0] - 1]
    if closed:
        world.panic(actor, "close of closed channel")
        return
    world.replace(channel[0], (kind, capacity, zero, True, buffer))
    world.go_on(actor, rest)
    for index, goroutine in enumerate(world.goroutines):
        waits = goroutine[2][2] if goroutine[2] else ()
        here = [wait for wait in waits if wait[0] == channel[0]]
        if here:
            world.close_for(index, here[0], zero)


def selects(world, actor, argument, choice):
    cases, otherwise = argument
    offers, rest = offers_of(cases, actor.operands)
    ready = [offer for offer in offers if is_ready(world, offer)]
    if ready:
        kind, target, channel, value = ready[choice % len(ready)]
        if kind == "Send":
            sends_on(world, actor, channel[0], value, target, rest)
        else:
            receives_on(world, actor, channel[0], kind == "TakeOk", target, rest)
    elif otherwise is not None:
        world.stand(actor, actor.frame(otherwise, rest))
    else:
        kind = "select" if cases else "select (no cases)"
        world.block(actor, rest, kind, tuple(wait_of(offer) for offer in offers if offer[2] is not None))


def offers_of(cases, operands):
    """Returns (kind, target, channel, value) of each case, and the operands below."""
    offers = []
    for kind, target in reversed(cases):
        value = None
        if kind == "Send":
            value, operands = operands[-1], operands[:-1]
        offers.append((kind, target, operands[-1], value))
        operands = operands[:-1]
    return offers[::-1], operands


def is_ready(world, offer):
    kind, target, channel, value = offer
    if channel is None:
        return False
    name, capacity, zero, closed, buffer = world.objects[channel[0] - 1]
    if kind == "Send":
        return closed or len(buffer) < capacity or world.first(channel[0], "receive") is not None
    return closed or bool(buffer) or world.first(channel[0], "send") is not None


def wait_of(offer):
    kind, target, channel, value = offer
    if kind == "Send":
        return (channel[0], "send", value, target, False)
    return (channel[0], "receive", None, target, kind == "TakeOk")


def on_object(act):
    """An operation on an object, which panics on nil."""
    def acting(world, actor, argument):
        reference, rest = actor.operands[-1], actor.operands[:-1]
        if reference is None:
            world.panic(actor, NIL_POINTER)
        else:
            act(world, actor, reference[0], world.objects[reference[0] - 1], rest)
    return acting


def locks(world, actor, number, mutex, rest):
    if mutex[1]:
        world.block(actor, rest, "sync.Mutex.Lock", ((number, "lock", None, None, False),))
    else:
        world.replace(number, ("mutex", True))
        world.go_on(actor, rest)


def unlocks(world, actor, number, mutex, rest):
    if mutex[1]:
        world.go_on(actor, rest)
        world.hand_over(number)
    else:
        world.die(actor, FATAL[0])


def adds(world, actor, argument):
    group, change = actor.operands[-2:]
    if group is None:
        world.panic(actor, NIL_POINTER)
        return
    count = wrapped(world.objects[group[0] - 1][1] + change)
    if count < 0:
        world.panic(actor, "sync: negative WaitGroup counter")
        return
    world.replace(group[0], ("group", count))
    world.go_on(actor, actor.operands[:-2])
    if count == 0:
        for ticket, index, wait in world.waiters(group[0], "group"):
            world.release(index)


def waits(world, actor, number, group, rest):
    if group[1] == 0:
        world.go_on(actor, rest)
    else:
        world.block(actor, rest, "sync.WaitGroup.Wait", ((number, "group", None, None, False),))


def gets_mutex(world, actor, number, condition, rest):
    world.go_on(actor, rest + (condition[1],))


def awaits(world, actor, number, condition, rest):
    if condition[1] is None:
        world.panic(actor, NIL_POINTER)
        return
    mutex = condition[1][0]
    if not world.objects[mutex - 1][1]:
        world.die(actor, FATAL[0])
        return
    world.hand_over(mutex)
    world.block(actor, rest, "sync.Cond.Wait", ((number, "condition", None, None, False),))


def notifies(most):
    def act(world, actor, number, condition, rest):
        waiters = world.waiters(number, "condition")[:most]
        world.go_on(actor, rest)
        for ticket, index, wait in waiters:
            world.pass_on(index, condition[1][0])
    return act


def takes(actor, count):
    """Returns so many operands, and the operands below."""
    split = len(actor.operands) - count
    return actor.operands[split:], actor.operands[:split]


def enters(world, actor, callers, frame):
    if len(callers) >= MOST_FRAMES:
        world.die(actor, FATAL[1])
    else:
        world.become(actor.index, (actor.number, callers + (frame,), None, actor.started))


def calls(world, actor, argument):
    arguments, rest = takes(actor, argument[1])
    below = actor.frame(actor.at + 1, rest)
    enters(world, actor, actor.callers + (below,), opened(world.code, argument[0], arguments, False))


def spawns(world, actor, argument):
    arguments, rest = takes(actor, argument[1])
    world.go_on(actor, rest)
    world.spawn(opened(world.code, argument[0], arguments, True), actor.line)


def defers(world, actor, argument):
    arguments, rest = takes(actor, argument[1])
    actor.deferred += ((argument[0], arguments),)
    world.go_on(actor, rest)


def returns(world, actor, argument):
    returns_by(world, actor, NO_VALUE, actor.operands)


def returns_value(world, actor, argument):
    returns_by(world, actor, actor.operands[-1], actor.operands[:-1])


def returns_by(world, actor, value, rest):
    """Without deferred calls the frame is removed in this turn."""
    if not actor.deferred:
        returns_to(world, actor, value)
        return
    frame = actor.frame(actor.at + 1, rest)
    world.stand(actor, frame[:5] + (("return", value), frame[6]))


def returns_to(world, actor, value):
    if not actor.callers:
        world.leave(actor.index)
        if actor.number == 1:
            world.recorded = ("returned",)
        return
    below = actor.callers[-1]
    if not actor.discards and value != NO_VALUE:
        below = below[:3] + (below[3] + (value,),) + below[4:]
    world.become(actor.index, (actor.number, actor.callers[:-1] + (below,), None, actor.started))


def unwinds_to(world, actor, kind, line):
    if not actor.callers:
        world.leave(actor.index)
        world.recorded = ("panicked", kind, actor.number, line)
        return
    below = unwinding(actor.callers[-1], kind, line)
    world.become(actor.index, (actor.number, actor.callers[:-1] + (below,), None, actor.started))


def leaves(world, actor):
    """A turn of a frame that is left: it begins its last deferred call, or is removed."""
    leaving = actor.leaving
    if actor.deferred:
        number, arguments = actor.deferred[-1]
        below = (actor.function, actor.at, actor.slots, actor.operands, actor.deferred[:-1], leaving, actor.discards)
        actor.line = leaving_line(world.code, actor)
        enters(world, actor, actor.callers + (below,), opened(world.code, number, arguments, True))
    elif leaving[0] == "return":
        returns_to(world, actor, leaving[1])
    else:
        unwinds_to(world, actor, leaving[1], leaving[2])


def leaving_line(code, actor):
    if actor.leaving[0] == "unwind":
        return actor.leaving[2]
    return code.functions[actor.function].body[actor.at - 1][2]


def prints(world, actor, count):
    values, rest = takes(actor, count)
    world.printed = " ".join(shown(value) for value in values)
    world.go_on(actor, rest)


def shown(value):
    return value.removeprefix('"') if isinstance(value, str) else str(value)


def panics(world, actor, argument):
    world.panic(actor, shown(actor.operands[-1]))


INSTRUCTIONS = {
    "Int": pushes, "Bool": pushes, "Text": pushes, "Unit": pushes_unit, "Nil": pushes_nil, "Load": loads,
    "Store": stores, "LoadGlobal": loads_global, "StoreGlobal": stores_global, "Drop": drops, "Neg": negates,
    "Not": inverts, "Add": calculates(lambda a, b: wrapped(a + b)), "Sub": calculates(lambda a, b: wrapped(a - b)),
    "Mul": calculates(lambda a, b: wrapped(a * b)), "Div": divides(quotient), "Rem": divides(remainder),
    "Eq": calculates(lambda a, b: truth(a == b)), "Less": calculates(lambda a, b: truth(a < b)),
    "AtMost": calculates(lambda a, b: truth(a <= b)), "Jump": jumps, "JumpIfNot": jumps_unless,
    "NewMutex": makes_mutex, "NewGroup": makes_group, "NewCond": makes_condition, "NewChan": makes_channel,
    "Len": measures, "Send": sends, "Receive": receives(False), "ReceiveOk": receives(True), "Close": closes,
    "Lock": on_object(locks), "Unlock": on_object(unlocks), "GroupAdd": adds, "GroupWait": on_object(waits),
    "CondMutex": on_object(gets_mutex), "CondWait": on_object(awaits), "CondSignal": on_object(notifies(1)),
    "CondBroadcast": on_object(notifies(None)), "Call": calls, "Go": spawns, "Defer": defers, "Return": returns,
    "ReturnValue": returns_value, "Print": prints, "Panic": panics}


# ---- turns

def turn(code, state, index, choice):
    """Returns the state after the turn of the goroutine at this index with this choice, and the line that it prints."""
    world = World(code, state)
    actor = Actor(index, state[2][index])
    if actor.leaving is not None:
        leaves(world, actor)
    else:
        name, argument, actor.line = code.functions[actor.function].body[actor.at]
        if name == "Select":
            selects(world, actor, argument, choice)
        else:
            INSTRUCTIONS[name](world, actor, argument)
    clear(world, actor)
    return world.state(), world.printed


def clear(world, actor):
    """After a turn the innermost frame of its goroutine holds what can still be read, if the goroutine runs."""
    if actor.index >= len(world.goroutines):
        return
    number, frames, mode, started = world.goroutines[actor.index]
    if number != actor.number or mode is not None:
        return
    function, at, slots, operands, deferred, leaving, discards = frames[-1]
    needed = world.code.functions[function].needed[at] if leaving is None else ()
    slots = cleared(slots, needed)
    frame = (function, at, slots, operands, deferred, leaving, discards)
    world.become(actor.index, (number, frames[:-1] + (frame,), mode, started))


def numbered_turn(code, state, number):
    """The turn of a number of the schedule."""
    able = runnable(state)
    return turn(code, state, able[number % len(able)], number // len(able))


def choices_of(code, goroutine):
    """Returns how many choices the next turn of a goroutine has: each further choice repeats one of those below."""
    function, at, slots, operands, deferred, leaving, discards = goroutine[1][-1]
    if leaving is not None:
        return 1
    name, argument, line = code.functions[function].body[at]
    return max(1, len(argument[0])) if name == "Select" else 1


# ---- who is dead

def frame_references(frame):
    yield from references(frame[2])
    yield from references(frame[3])
    for number, arguments in frame[4]:
        yield from references(arguments)
    if frame[5] and frame[5][0] == "return":
        yield from references((frame[5][1],))


def references(values):
    for value in values:
        if type(value) is tuple:
            yield value[0]


def goroutine_references(goroutine):
    for frame in goroutine[1]:
        yield from frame_references(frame)
    if goroutine[2]:
        for wait in goroutine[2][2]:
            yield wait[0]
            yield from references((wait[2],))


def object_references(thing):
    if thing[0] == "chan":
        yield from references(thing[4])
    elif thing[0] == "cond":
        yield from references((thing[1],))


def reach(state, marked, pending):
    """Marks what the pending objects reach."""
    while pending:
        number = pending.pop()
        if number not in marked:
            marked.add(number)
            pending.extend(object_references(state[1][number - 1]))


def live_set(state):
    """Returns the marked objects and the dead goroutines: a blocked one is a root once it waits on a marked object."""
    marked, pending = set(), list(references(state[0]))
    blocked = []
    for goroutine in state[2]:
        if goroutine[2] is None:
            pending.extend(goroutine_references(goroutine))
        else:
            blocked.append(goroutine)
    reach(state, marked, pending)
    while True:
        awake = [g for g in blocked if any(wait[0] in marked for wait in g[2][2])]
        if not awake:
            return marked, blocked
        blocked = [g for g in blocked if g not in awake]
        for goroutine in awake:
            pending.extend(goroutine_references(goroutine))
        reach(state, marked, pending)


def dead_of(state):
    """Returns the dead goroutines of a state; one with an ending is not looked at."""
    for goroutine in state[2]:
        if goroutine[2] is not None:
            return () if ending(state) else live_set(state)[1]
    return ()


def report_line(goroutine):
    number, frames, mode, started = goroutine
    return "goroutine %d: %s at line %d, started at line %d" % (number, mode[0], mode[1], started)


# ---- one run

def ending_line(state):
    """Returns the line on standard error that tells an ending, none if the run returned."""
    how = ending(state)
    if how[0] == "returned":
        return None
    if how[0] == "asleep":
        return "fatal error: all goroutines are asleep - deadlock!"
    kind = "fatal error" if how[1] in FATAL else "panic"
    return "%s: %s (goroutine %d, line %d)" % (kind, how[1], how[2], how[3])


class Run:
    """A run by written choices, with a collection after each so many turns."""

    def __init__(self, code, choices, every):
        self.output, self.errors, self.reported, self.collections = [], [], set(), 0
        self.code, self.state, self.turns = code, start(code), 0
        for number in choices:
            if ending(self.state):
                break
            printed = self.take(number)
            if printed is not None:
                self.output.append(printed)
            if self.turns % every == 0 and not ending(self.state):
                self.collect()
        self.status = self.end()

    def take(self, number):
        """Takes the turn of this number, and returns what it printed."""
        self.state, printed = numbered_turn(self.code, self.state, number)
        self.turns += 1
        return printed

    def collect(self):
        marked, dead = live_set(self.state)
        new = [goroutine for goroutine in dead if goroutine[0] not in self.reported]
        self.reported.update(goroutine[0] for goroutine in new)
        self.collections += 1
        left = set(marked)
        reach(self.state, left, [number for goroutine in dead for number in goroutine_references(goroutine)])
        self.errors.append("collection %d: marked %d, reported %d, kept %d, reclaimed 0, objects %d"
                           % (self.collections, len(marked), len(new), len(dead), len(left)))
        self.errors.extend(report_line(goroutine) for goroutine in new)

    def end(self):
        if not ending(self.state):
            self.errors.append("stopped after %d turns" % self.turns)
            return 3
        line = ending_line(self.state)
        if line is None:
            return 1 if self.reported else 0
        self.errors.append(line)
        return 2
