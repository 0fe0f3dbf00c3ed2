#!/usr/bin/env python3
"""Takes a second look at what `--why` tells.

It runs COUNT made files with `--why`, with recovery and without, in which goroutines wait on channels of structs that
refer to one another, some of them held by globals and some by goroutines that wait. For each collection it asks:

- The certificate has as many places as the collection has marked objects and lines of goroutines that are reached.
- What stands before an object or goroutine in a line is the same in all lines; before a goroutine stands its own
  reason.
- Nothing is named twice in a line.
- Goroutines rise, none of them is reported, and a goroutine that is reported is never told as reached later.

Without `--why` the run must be the same but for these lines.
"""

import random
import sys

from shared import CERTIFICATE, COLLECTION, REACHED, REPORTED, Words, run

HEAD = """package main

import (
	"fmt"
	"runtime"
)

type Node struct {
	c    chan int
	next *Node
	side *Node
}

"""
WAIT = """
func wait(n *Node, m *Node) {
	v := <-n.c
	m.c <- v + 1
}

func offer(n *Node, m *Node) {
	n.c <- 1
	fmt.Println(len(m.c))
}

func either(n *Node, m *Node) {
	select {
	case <-n.c:
	case <-m.c:
	}
	n.next = m
}

"""
# The lines of a collection that ends the last one.
LAST = "collection 0: marked 0, reported 0, kept 0, reclaimed 0, objects 0"


def made(at_random):
    """Returns a file whose goroutines wait in a random graph."""
    nodes, globals_ = at_random.randint(3, 14), at_random.randint(1, 3)
    lines = [f"n{k} := &Node{{c: make(chan int)}}" for k in range(nodes)]
    for k in range(nodes):
        for field in ("next", "side"):
            if at_random.random() < 0.4:
                lines.append(f"n{k}.{field} = n{at_random.randrange(nodes)}")
    lines += [f"g{k} = n{at_random.randrange(nodes)}" for k in range(globals_)]
    for _ in range(at_random.randint(2, 12)):
        a, b = at_random.randrange(nodes), at_random.randrange(nodes)
        lines.append(f"go {at_random.choice(['wait', 'wait', 'wait', 'offer', 'either'])}(n{a}, n{b})")
        if at_random.random() < 0.15:
            lines.append("runtime.GC()")
    lines += [f"for i := 0; i < {at_random.randint(20, 120)}; i++ {{", "}", "runtime.GC()"]
    if at_random.random() < 0.5:
        lines += ["g0 = nil", "runtime.GC()"]
    declared = "".join(f"var g{k} *Node\n" for k in range(globals_))
    return HEAD + declared + WAIT + "func main() {\n" + "".join(f"\t{line}\n" for line in lines) + "}\n"


class Told:
    """The lines of a run so far: who was reported, and what the last collection told."""

    def __init__(self):
        self.dead = set()
        self.begin(0, 0)

    def begin(self, number, marked):
        """Begins a collection."""
        self.number, self.marked, self.size = number, marked, None
        self.reached, self.before, self.last = 0, {}, 0

    def fault_of_size(self):
        """Returns what is wrong with the certificate of the collection that ends, or None."""
        if not self.number or self.size == self.marked + self.reached:
            return None
        return f"collection {self.number}: certificate {self.size}, marked {self.marked}, reached {self.reached}"

    def fault_of_way(self, line, number, way):
        """Returns what is wrong with the line of a goroutine that is reached, or None."""
        self.reached += 1
        if number <= self.last or number in self.dead:
            return f"goroutine {number} is out of order, or dead"
        self.last = number
        way = [*way.split(", "), f"goroutine {number}"]
        if len(set(way)) != len(way):
            return f"named twice: {line}"
        if not way[0].startswith("object "):
            return f"no object first: {line}"
        for k, name in enumerate(way):
            if self.before.setdefault(name, way[:k]) != way[:k]:
                return f"two ways to {name}: {self.before[name]} and {way[:k]}"
        return None

    def fault_of(self, line):
        """Takes a line, and returns what is wrong with it, or None."""
        if found := COLLECTION.fullmatch(line):
            fault = self.fault_of_size()
            self.begin(int(found[1]), int(found[2]))
            return fault
        if found := REPORTED.fullmatch(line):
            self.dead.add(int(found[1]))
        elif found := CERTIFICATE.fullmatch(line):
            self.size = int(found[2])
            return None if int(found[1]) == self.number else f"certificate {found[1]} after collection {self.number}"
        elif found := REACHED.fullmatch(line):
            return self.fault_of_way(line, int(found[1]), found[4])
        return None


def wrong(errors):
    """Returns what is wrong with the lines of a run, or None."""
    told = Told()
    return next(filter(None, map(told.fault_of, [*errors.splitlines(), LAST])), None)


def is_reason(line):
    """Whether only `--why` tells this line."""
    return bool(CERTIFICATE.fullmatch(line) or REACHED.fullmatch(line))


def fault_of(program, text, words):
    """Runs a file with `--why` and without, and returns the lines of the first and what is wrong, or None."""
    first, second = (run([program, "run", *words, *more], text) for more in ([], ["--why"]))
    plain, told = first.stderr.decode().splitlines(), second.stderr.decode()
    fault = wrong(told)
    others = [line for line in told.splitlines() if not is_reason(line)]
    if fault is None and (first.returncode, first.stdout, plain) != (second.returncode, second.stdout, others):
        fault = "the run differs by more than the lines of `--why`"
    return told, fault


def main():
    options = Words(__doc__)
    options.add_program()
    options.add_made(100)
    given = options.parse_args()
    at_random, certificates, ways = random.Random(given.seed), 0, []
    for k in range(given.count):
        text = made(at_random)
        for words in ([], ["--recover"], ["--every", "7"]):
            told, fault = fault_of(given.program, text, words)
            if fault:
                print(f"file {k} {words}: {fault}\n{told}\n{text}")
                return 1
            certificates += told.count("certificate ")
            ways += [line.count(",") for line in told.splitlines() if REACHED.fullmatch(line)]
    longest = max(ways, default=0) + 1
    print(f"{given.count} files: {certificates} certificates, {len(ways)} reasons, the longest of {longest} places: "
          "nothing is wrong")
    return 0


if __name__ == "__main__":
    sys.exit(main())
