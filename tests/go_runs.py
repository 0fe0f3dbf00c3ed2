#!/usr/bin/env python3
"""Compares runs of `golf` with those of Go's own compiler.

It makes COUNT files of one goroutine each, which compute, loop, call, defer, send, receive and panic, and runs each
with the program and as `go build` makes it. It prints each file for which the output, the status or the line of a
panic differs. Go leaves open in which order the operands of a statement are evaluated: the files call functions at
the top of a statement alone. It needs `go` on the path.
"""

import collections
import os
import random
import re
import subprocess
import sys
import tempfile

from shared import Words, run

HEAD = """package main

import "fmt"

type T struct {
	a  int
	b  bool
	s  string
	n  *T
	xs []int
}

var g0 = 3
var g1 []int = []int{1, 2}

const k0 = 7
const k1 = "k"

func none() *T {
	return nil
}

func (t *T) sum(d int) int {
	if t.n == nil {
		return t.a + d
	}
	return t.a + d + t.n.a
}

func told(n int) {
	fmt.Println("left", n)
}

func down(n int) int {
	if n <= 0 || n > 20 {
		return 0
	}
	defer told(n)
	return n + down(n-1)
}
"""
GLOBALS = [("g0", "int", True), ("g1", "[]int", True), ("k0", "int", False), ("k1", "string", False)]
KINDS = ["int", "int", "int", "bool", "string", "*T", "[]int", "chan int"]
COMPARISONS, EQUALS = ["<", "<=", ">", ">=", "==", "!="], ["==", "!="]
FIELDS = {"a": "int", "b": "bool", "s": "string", "n": "*T", "xs": "[]int"}


class Maker:
    """Makes a file. Variables are told as a name, a type, and whether they may be assigned."""

    def __init__(self, seed):
        self.chance, self.lines, self.count, self.left = random.Random(seed), [], 0, 0
        self.functions = [("down", ["int"], "int")]

    def name(self):
        self.count += 1
        return f"v{self.count}"

    def of(self, known, kind):
        return [name for name, own, _ in known if own == kind]

    def any_of(self, known, kind):
        names = self.of(known, kind)
        return self.chance.choice(names) if names else self.literal(known, kind, 1)

    def literal(self, known, kind, depth):
        pick = self.chance.choice
        if kind == "int":
            return pick(["0", "1", "2", "3", "5", "10", "100", "9223372036854775807"])
        if kind == "bool":
            return pick(["true", "false"])
        if kind == "string":
            return pick(['"a"', '"b"', '""', '"x y"', '"q\\"t\\n"'])
        if kind == "chan int":
            return pick(["make(chan int, 4)", "make(chan int, 8)"])
        if kind == "[]int":
            items = [self.value(known, "int", depth - 1) for _ in range(pick([2, 2, 3]))]
            return pick([f"make([]int, {pick([2, 3])})", "[]int{%s}" % ", ".join(items)])
        fields = [f"{it}: {self.value(known, FIELDS[it], depth - 1)}" for it in ("a", "b", "s", "xs")
                  if self.chance.random() < 0.5]
        return pick(["none()", "new(T)"] + ["&T{%s}" % ", ".join(fields)] * 6)

    def value(self, known, kind, depth=2):
        """Returns an expression without a call."""
        names, pick = self.of(known, kind), self.chance.choice
        if depth <= 0 or self.chance.random() < 0.35:
            return pick(names) if names and self.chance.random() < 0.85 else self.literal(known, kind, depth)
        pointers, slices = self.of(known, "*T"), self.of(known, "[]int")
        # Both are made in any case, so that a seed always makes the same file.
        some = {"int": self.between(known, "int", "+-*", depth), "bool": self.between(known, "int", COMPARISONS, depth)}
        forms = [some[kind]] * 3 if kind in some else [self.literal(known, kind, depth)]
        if pointers:
            fields = [it for it in FIELDS if FIELDS[it] == kind]
            forms.append(f"{pick(pointers)}.{pick(fields)}" if fields else forms[0])
        if kind == "int":
            forms += [f"({self.any_of(known, 'int')} {pick('/%')} {self.any_of(known, 'int')})"]
            forms += [f"-{self.any_of(known, 'int')}"]
            forms += [self.element(known), f"len({pick(slices)})"] if slices else []
        if kind == "bool":
            forms += [self.between(known, "bool", ["&&", "||"], depth), f"!{self.any_of(known, 'bool')}"]
            text = self.any_of(known, "string")
            forms += [f"({text} {pick(EQUALS)} {self.value(known, 'string', depth - 1)})"]
            forms += [f"({pick(pointers)} {pick(EQUALS)} {self.value(known, '*T', depth - 1)})"] if pointers else []
        return pick(forms)

    def between(self, known, kind, operators, depth):
        """Returns two values of a kind with an operator between."""
        left = self.value(known, kind, depth - 1)
        operator = self.chance.choice(operators)
        return f"({left} {operator} {self.value(known, kind, depth - 1)})"

    def element(self, known):
        pick, at = self.chance.choice, self.any_of(known, "int")
        return f'{pick(self.of(known, "[]int"))}[{pick(["0", "1", "0", "1", f"{at} % 2", at])}]'

    def call(self, known, function):
        return f'{function[0]}({", ".join(self.value(known, it, 1) for it in function[1])})'

    def top(self, known, kind):
        """An expression, or a call of a function or method."""
        fitting = [it for it in self.functions if it[2] == kind]
        if fitting and self.chance.random() < 0.3:
            return self.call(known, self.chance.choice(fitting))
        if kind == "int" and self.of(known, "*T") and self.chance.random() < 0.1:
            return f'{self.chance.choice(self.of(known, "*T"))}.sum({self.value(known, "int", 1)})'
        return self.value(known, kind)

    def write(self, depth, line):
        self.lines.append("\t" * depth + line)

    def block(self, known, depth, result, loops, count):
        known = list(known)
        for _ in range(count):
            self.left -= 1
            self.statement(known, depth, result, loops)
        return known

    def inside(self, head, known, depth, result, loops):
        self.write(depth, head + " {")
        self.block(known, depth + 1, result, loops, self.chance.choice([1, 2, 3]))

    def statement(self, known, depth, result, loops):
        kinds = [self.declares, self.declares, self.assigns, self.assigns, self.puts, self.prints, self.calls]
        kinds += [self.passes, self.leaves]
        if depth < 5 and self.left > 0:
            kinds += [self.tests, self.counts, self.ranges]
        self.chance.choice(kinds)(known, depth, result, loops)

    def declares(self, known, depth, result, loops):
        kind, name = self.chance.choice(KINDS), self.name()
        forms = [f"{name} := {self.top(known, kind)}", f"var {name} {kind} = {self.top(known, kind)}"]
        self.write(depth, self.chance.choice(forms))
        self.write(depth, f"_ = {name}")
        known.append((name, kind, True))

    def assigns(self, known, depth, result, loops):
        name, kind, _ = self.chance.choice([it for it in known if it[2]])
        forms = [f"{name} = {self.top(known, kind)}"]
        if kind == "int":
            operator = self.chance.choice(["+=", "-=", "*="])
            forms += [f"{name}++", f"{name}--", f"{name} {operator} {self.value(known, 'int')}"]
        self.write(depth, self.chance.choice(forms))

    def puts(self, known, depth, result, loops):
        field = self.chance.choice(list(FIELDS))
        forms = [f'{self.element(known)} {self.chance.choice(["=", "+=", "-="])} {self.value(known, "int")}']
        if self.of(known, "*T"):
            forms.append(f'{self.chance.choice(self.of(known, "*T"))}.{field} = {self.value(known, FIELDS[field])}')
        self.write(depth, self.chance.choice(forms))

    def prints(self, known, depth, result, loops):
        kinds = [self.chance.choice(["int", "bool", "string"]) for _ in range(self.chance.choice([1, 2, 3]))]
        self.write(depth, f'fmt.Println({", ".join(self.value(known, it) for it in kinds)})')

    def calls(self, known, depth, result, loops):
        self.write(depth, self.chance.choice(["", "", "defer "]) + self.call(known, self.chance.choice(self.functions)))

    def passes(self, known, depth, result, loops):
        channel, name, other = self.any_of(known, "chan int"), self.name(), self.name()
        if channel.startswith("make"):
            return
        lines = self.chance.choice([
            [f"if len({channel}) < 3 {{", f'\t{channel} <- {self.value(known, "int")}', "}"],
            [f"if len({channel}) > 0 {{", f"\t{name}, {other} := <-{channel}", f"\tfmt.Println({name}, {other})", "}"],
            ["select {", f"case {name} := <-{channel}:", f"\tfmt.Println({name})", "default:",
             '\tfmt.Println("none")', "}"]])
        for line in lines:
            self.write(depth, line)

    def leaves(self, known, depth, result, loops):
        forms = [f"return {self.value(known, result)}" if result else "return"]
        forms += [self.chance.choice(['panic("a")', "panic(k1)"])]
        self.write(depth, f'if {self.value(known, "bool")} {{')
        self.write(depth + 1, self.chance.choice(["break", "continue"] * 3 + forms if loops else forms))
        self.write(depth, "}")

    def tests(self, known, depth, result, loops):
        self.inside(f'if {self.value(known, "bool")}', known, depth, result, loops)
        if self.chance.random() < 0.5:
            self.inside("} else", known, depth, result, loops)
        self.write(depth, "}")

    def counts(self, known, depth, result, loops):
        name = self.name()
        head = f"for {name} := 0; {name} < {self.chance.choice([2, 3])}; {name}++"
        self.inside(head, known + [(name, "int", False)], depth, result, True)
        self.write(depth, "}")

    def ranges(self, known, depth, result, loops):
        at, item = self.name(), self.name()
        self.write(depth, f'for {at}, {item} := range {self.chance.choice(self.of(known, "[]int"))} {{')
        self.write(depth + 1, f"_ = {at} + {item}")
        self.block(known + [(at, "int", True), (item, "int", True)], depth + 1, result, True, 2)
        self.write(depth, "}")

    def function(self):
        name, result = self.name(), self.chance.choice([None, "int", "int", "bool", "string"])
        parameters = [(self.name(), self.chance.choice(KINDS), True) for _ in range(self.chance.choice([0, 1, 2, 3]))]
        self.left = 12
        told = ", ".join(f"{it[0]} {it[1]}" for it in parameters)
        self.write(0, f"\nfunc {name}({told}) {result + ' ' if result else ''}{{")
        known = self.block(GLOBALS + parameters, 1, result, False, self.chance.choice([2, 3, 5]))
        if result:
            self.write(1, f"return {self.value(known, result)}")
        self.write(0, "}")
        self.functions.append((name, [it[1] for it in parameters], result))

    def file(self):
        for _ in range(self.chance.choice([1, 2, 3])):
            self.function()
        self.left = 40
        self.write(0, "\nfunc main() {")
        known = list(GLOBALS)
        for kind in sorted(set(KINDS)):
            name = self.name()
            self.write(1, f"{name} := {self.literal(known, kind, 1)}")
            self.write(1, f"_ = {name}")
            known.append((name, kind, True))
        self.block(known, 1, None, False, self.chance.choice([8, 12, 20]))
        self.write(1, 'fmt.Println("end", g0, len(g1))')
        self.write(0, "}")
        return HEAD + "\n".join(self.lines) + "\n"


def by_go(text):
    """Returns output, status and the line of a panic as Go has them, or None if Go refuses the file."""
    with tempfile.TemporaryDirectory() as folder:
        with open(f"{folder}/made.go", "w", encoding="utf-8") as file:
            file.write(text)
        environment = dict(os.environ, GO111MODULE="off")
        # Without optimisations, which drop the check of a pointer whose next use fails too, and so name a later line.
        build = ["go", "build", "-gcflags=-N -l", "-o", f"{folder}/made", f"{folder}/made.go"]
        if subprocess.run(build, stderr=subprocess.DEVNULL, env=environment).returncode:
            return None
        done = run([f"{folder}/made"], "")
    told = done.stderr.decode()
    at = re.search(r"/made\.go:(\d+)", told)
    # A panic of a deferred call stands behind the one before it.
    last = (re.findall(r"^\t*(panic: .*)$", told, re.M) or [told.partition("\n")[0]])[-1]
    return done.stdout, done.returncode, f"{last} (goroutine 1, line {at[1]})" if at else last


def by_program(program, text):
    """Returns output, status and the line of a panic as the program has them."""
    done = run([program, "run", "--turns", "10000000"], text)
    # Go tells no length where the index is negative (docs/LANGUAGE.md).
    told = re.sub(r"(\[-\d+\]) with length \d+", r"\1", done.stderr.decode())
    return done.stdout, done.returncode, told.partition("\n")[0]


def main():
    options = Words(__doc__)
    options.add_program()
    options.add_made(100)
    given = options.parse_args()
    differing = refused = 0
    endings = collections.Counter()
    for number in range(given.seed, given.seed + given.count):
        text = Maker(number).file()
        wanted, got = by_go(text), by_program(given.program, text)
        if wanted is None:
            refused += 1
        elif wanted == got:
            endings[got[2].split(" (")[0]] += 1
        else:
            differing += 1
            print(f"== {number}: Go {wanted[1:]}, the program {got[1:]}\n{text}")
    print(f"{sum(endings.values())} alike, {differing} differing, {refused} that Go refuses, "
          "since a constant is too large")
    print(dict(endings))
    return 1 if differing else 0


if __name__ == "__main__":
    sys.exit(main())
