"""Programs to compare with, and schedules to run them by: the files of examples/schedules, and generated ones."""

import random
from itertools import islice

from shared import examples, text_of

from .code import code_of
from .states import Explored

MOST_STATES = 12_000
MOST_EXAMPLE_STATES = 60_000
SCHEDULED_TURNS = 400
SEED_FACTOR, SEED_STEP, SEED_SIZE = 6364136223846793005, 1442695040888963407, 1 << 64


class Maker:
    """Makes one program. Each part is a list of lines without indentation."""

    def __init__(self, seed, number):
        self.random = random.Random("%s %s" % (seed, number))
        self.used = set()
        self.locals = 0
        self.channels = ["a", "b"][:self.random.choice([1, 1, 2, 2])]
        self.mutexes = ["m", "n"][:self.random.choice([0, 0, 1, 1, 2])]
        self.groups = ["w"][:self.random.choice([0, 1, 1])]
        self.capacity = {name: self.random.choice([0, 0, 0, 1, 1, 2]) for name in self.channels}

    def pick(self, choices):
        """Returns one of the keys; its value says how often."""
        return self.random.choices(list(choices), list(choices.values()))[0]

    def use(self, name):
        self.used.add(name)
        return name

    def channel(self):
        return self.use(self.random.choice(self.channels))

    def number(self):
        return str(self.random.randint(1, 3))

    # statements

    def statement(self, depth):
        """Returns the lines of a statement, in which at most so many others are nested."""
        choices = {"send": 6, "receive": 6, "change": 2, "close": 1}
        if self.mutexes:
            choices.update({"locked": 4, "lock": 0.4, "unlock": 0.4})
        if self.groups:
            choices.update({"done": 1, "wait": 0.7})
        if depth > 0:
            choices.update({"loop": 1.5, "select": 2.5, "test": 1, "over": 0.7})
        return getattr(self, "make_" + self.pick(choices))(depth)

    def statements(self, most, depth):
        lines = []
        for _ in range(self.random.randint(1, most)):
            lines.extend(self.statement(depth))
        return lines

    def make_send(self, depth):
        return ["%s <- %s" % (self.channel(), self.number())]

    def make_receive(self, depth):
        if self.random.random() < 0.6:
            return ["<-" + self.channel()]
        self.locals += 1
        if self.random.random() < 0.3:
            return ["v%d, ok := <-%s" % (self.locals, self.channel()), "if !ok {", "return", "}",
                    "total += v%d" % self.locals]
        return ["v%d := <-%s" % (self.locals, self.channel()), "total += v%d" % self.locals]

    def make_change(self, depth):
        return [self.random.choice(["total++", "total += 2", "total -= 1"])]

    def make_close(self, depth):
        return ["close(%s)" % self.channel()]

    def mutex(self):
        return self.use(self.random.choice(self.mutexes))

    def make_locked(self, depth):
        name = self.mutex()
        inner = self.statement(0) if self.random.random() < 0.5 else self.make_change(0)
        return ["%s.Lock()" % name] + inner + ["%s.Unlock()" % name]

    def make_lock(self, depth):
        return ["%s.Lock()" % self.mutex()]

    def make_unlock(self, depth):
        return ["%s.Unlock()" % self.mutex()]

    def make_done(self, depth):
        return ["%s.Done()" % self.use("w")]

    def make_wait(self, depth):
        return ["%s.Wait()" % self.use("w")]

    def make_loop(self, depth):
        self.locals += 1
        name = "i%d" % self.locals
        return ["for %s := 0; %s < 2; %s++ {" % (name, name, name)] + self.statements(1, depth - 1) + ["}"]

    def make_over(self, depth):
        return ["for range %s {" % self.channel()] + self.make_change(0) + ["}"]

    def make_test(self, depth):
        test = self.random.choice(["total == 0", "total > 1", "total < 2", "total != 3"])
        body = ["return"] if self.random.random() < 0.4 else self.statement(depth - 1)
        if self.random.random() < 0.3:
            return ["if %s {" % test] + body + ["} else {"] + self.statement(depth - 1) + ["}"]
        return ["if %s {" % test] + body + ["}"]

    def make_select(self, depth):
        lines = ["select {"]
        for _ in range(2):
            lines += self.case() + (self.statement(0) if self.random.random() < 0.4 else [])
        if self.random.random() < 0.35:
            lines += ["default:"] + (self.statement(0) if self.random.random() < 0.4 else [])
        return lines + ["}"]

    def case(self):
        if self.random.random() < 0.45:
            return ["case %s <- %s:" % (self.channel(), self.number())]
        if self.random.random() < 0.7:
            return ["case <-%s:" % self.channel()]
        self.locals += 1
        return ["case v%d := <-%s:" % (self.locals, self.channel()), "total += v%d" % self.locals]

    # functions

    def worker(self, number):
        """Returns the name of a function, what it uses, and its lines."""
        self.used = set()
        lines = []
        if self.groups and self.random.random() < 0.5:
            lines.append("defer %s.Done()" % self.use("w"))
        if self.mutexes and self.random.random() < 0.1:
            name = self.mutex()
            lines += ["%s.Lock()" % name, "defer %s.Unlock()" % name]
        lines += self.statements(2, 1)
        return "work%d" % number, sorted(self.used), lines

    def main(self, workers, count):
        """Returns the lines of main, which starts so many goroutines on the workers."""
        self.used = set()
        starts = []
        for number in range(count):
            name, uses, lines = workers[number % len(workers)]
            self.used.update(uses)
            starts.append("go %s(%s)" % (name, ", ".join(uses)))
        lines = []
        if "w" in self.used:
            lines.append("w.Add(%d)" % max(1, count + self.random.choice([0, 0, 0, -1, 1])))
        if self.groups and "w" in self.used and self.random.random() < 0.3:
            starts.append("go w.Wait()")
        lines += starts + self.statements(2, 1)
        if self.groups and "w" in self.used and self.random.random() < 0.4:
            lines.append("w.Wait()")
        if self.random.random() < 0.3:
            lines += ["close(%s)" % self.channel()]
        return self.made() + lines + (["fmt.Println(total)"] if self.random.random() < 0.7 else [])

    def made(self):
        """Returns the lines that make what main uses."""
        lines = []
        for name in sorted(self.used):
            if name in self.channels:
                lines += self.new_channel(name)
            elif name in self.mutexes:
                lines.append("%s := &sync.Mutex{}" % name)
            else:
                lines.append("%s := new(sync.WaitGroup)" % name)
        return lines

    def new_channel(self, name):
        """Returns the lines that make a channel, which now and then a global keeps."""
        size = ", %d" % self.capacity[name] if self.capacity[name] else ""
        if self.random.random() < 0.08:
            return ["kept = make(chan int%s)" % size, "%s := kept" % name]
        return ["%s := make(chan int%s)" % (name, size)]

    def program(self):
        workers = [self.worker(number) for number in range(self.random.choice([1, 2, 2]))]
        count = max(len(workers), self.random.choice([1, 2, 2, 2, 3]))
        bodies = [(name, parameters_of(uses), lines) for name, uses, lines in workers]
        bodies.append(("main", "", self.main(workers, count)))
        text = "\n".join(function_text(*body) for body in bodies)
        if "kept" in text:
            text = "var kept chan int\n\n" + text
        if "total" in text:
            text = "var total int\n\n" + text
        return "package main\n\n" + imports_of(text) + text


def parameters_of(names):
    types = {"m": "*sync.Mutex", "n": "*sync.Mutex", "w": "*sync.WaitGroup"}
    return ", ".join("%s %s" % (name, types.get(name, "chan int")) for name in names)


def function_text(name, parameters, lines):
    depth, shown = 1, []
    for line in lines:
        depth -= line.startswith("}")
        at = depth - 1 if line.startswith(("case ", "default:")) else depth
        shown.append("\t" * at + line)
        depth += line.endswith("{")
    return "func %s(%s) {\n%s\n}\n" % (name, parameters, "\n".join(shown))


def imports_of(text):
    return "".join('import "%s"\n' % name for name in ("fmt", "sync") if name + "." in text) + "\n"


class Made:
    """A program, its code, and what all its schedules come to."""

    def __init__(self, name, text, most):
        self.name = name
        self.text = text
        self.code = code_of(self.text)
        self.explored = Explored(self.code, most)

    def kind(self):
        """Returns in which schedules it leaks."""
        if self.explored.leak is None:
            return "never"
        return "some" if self.explored.endings else "always"


def made_programs(seed, count, counts):
    """Yields so many programs of which it is known in which schedules they leak; the others are counted."""
    number = 0
    while counts.programs < count:
        name = "%d of seed %d" % (number, seed)
        made = Made(name, Maker(seed, number).program(), MOST_STATES)
        number += 1
        if made.explored.complete or made.kind() == "some":
            counts.add(made)
            yield made
        else:
            counts.left_out += 1


def example_files():
    """Returns the files of the pairs of examples/schedules."""
    return examples("schedules/*_*.go")


def example_programs():
    """Returns the pairs of examples/schedules."""
    return [Made(file.stem, text_of(file), MOST_EXAMPLE_STATES) for file in example_files()]


class Counts:
    """Counts of programs by what their schedules come to."""

    def __init__(self):
        self.kinds = {"some": 0, "always": 0, "never": 0}
        self.panics = self.sleeps = self.states = self.programs = self.left_out = 0

    def add(self, made):
        """Counts a program."""
        self.programs += 1
        self.kinds[made.kind()] += 1
        self.panics += made.explored.ends("panicked")
        self.sleeps += made.explored.ends("asleep")
        self.states += made.explored.states

    def tell(self):
        """Prints the counts."""
        print("%d programs, %d states; %d left out with more states than the limit"
              % (self.programs, self.states, self.left_out))
        print("leaks under some schedules and not under others: %d; under each: %d; under none: %d"
              % (self.kinds["some"], self.kinds["always"], self.kinds["never"]))
        print("a schedule panics without a leak before: %d; all goroutines fall asleep so: %d"
              % (self.panics, self.sleeps))


def seeded(seed):
    """Yields the numbers of a seed."""
    number = seed
    while True:
        number = (number * SEED_FACTOR + SEED_STEP) % SEED_SIZE
        yield number >> 33


def schedules_of(at_random):
    """Returns (words, numbers) of five schedules: rotation, a seed, and three lists of choices."""
    seed = at_random.randrange(SEED_SIZE)
    turns = ["--turns", str(SCHEDULED_TURNS)]
    found = [(turns + ["--schedule", "rotate"], list(range(SCHEDULED_TURNS))),
             (turns + ["--schedule", "seed:%d" % seed], list(islice(seeded(seed), SCHEDULED_TURNS)))]
    for most in (1, 12, 1 << 31):
        numbers = [at_random.randrange(most + 1) for _ in range(at_random.choice([40, 150, SCHEDULED_TURNS]))]
        found.append((["--schedule", "choices:" + ",".join(map(str, numbers))], numbers))
    return found
