#!/usr/bin/env python3
"""Prints the time of reading a file, as it grows.

It runs a program `golf` on generated files of 10 kB, 100 kB and 1 MB: on files of the whole language laid out as
gofmt writes them, on files that declare names in one scope, and on files of `fmt.Println(1)`, which are run. Each of
the others is read three times:

- with an unknown import, which breaks the first rule: its tokens and its tree are made and no more is done;
- with `x := nil` in its last function: it is judged whole, and then refused;
- as it is: it is compiled too, and its `main` returns at once.

It prints the best of five runs each, and the time a byte; that of the empty file, which is mostly the start of the
program, is taken off.
"""

from shared import Words, best_time

RUNS = 5
HEAD = """package main

import (
	"fmt"
	"sync"
)

type Node struct {
	c     chan int
	next  *Node
	group *sync.WaitGroup
}

func main() {
}
"""
FUNCTION = """
func (n *Node) serve%d(quit chan int, limit int) int {
	total := 0 // what came so far
	for i := 0; i < limit*(2+limit); i++ {
		select {
		case value, ok := <-n.c:
			if !ok || value == -1 && total > 10 {
				return total
			}
			total += value
		case <-quit:
			break
		default:
			fmt.Println("none \\"yet\\"", total, []int{1, 2, i}[1])
		}
	}
	defer n.group.Done()
	go n.next.serve%d(quit, limit-1)
	n.next = &Node{c: make(chan int, 2), next: n.next}
	return (total + limit) %% 7
}
"""
SIZES = (10_000, 100_000, 1_040_000)


def filled(head, part, first, size):
    """Returns a file of almost this size: a head, and parts with the numbers from the first one on."""
    parts, length, number = [head], len(head), first
    while length < size:
        parts.append(part(number))
        length += len(parts[-1])
        number += 1
    return "".join(parts[:-1])


def whole(size):
    return filled(HEAD, lambda k: FUNCTION % (k, k), 0, size)


def names(size):
    """A function that declares names, each by the one before: 10,000 of them are about 290 kB."""
    head = "package main\n\nfunc f() {\n\tname0 := 0\n"
    return filled(head, lambda k: f"\tname{k} := name{k - 1} + {k}\n", 1, size + len(head)) + "}\n\nfunc main() {\n}\n"


def globals_of(size):
    """The same with globals, and a function that uses each."""
    head = "package main\n\nvar name0 = 0\n"
    part = "var name%d = name%d + %d\n\nfunc use%d() int {\n\treturn name%d\n}\n"
    return filled(head, lambda k: part % (k, k - 1, k, k, k), 1, size + len(head)) + "func main() {\n}\n"


def with_unknown_import(text):
    return text.replace("package main\n\n", 'package main\nimport "os"\n', 1)


def with_nil(text):
    return text + "\nfunc last() {\n\tx := nil\n}\n"


def printing(size):
    line = "\tfmt.Println(1)\n"
    return 'package main\nimport "fmt"\nfunc main() {\n%s}\n' % (line * ((size - 50) // len(line)))


def seconds(program, text, status, errors):
    """Returns the least time of a run by the clock, in seconds."""
    return best_time([program, "run"], text, RUNS, status, errors)


def shown(name, text, taken, empty):
    """Prints a row."""
    each = (taken - empty) / len(text) * 1e9
    print(f"{name:<34} {len(text):8} bytes: {taken * 1e3:8.2f} ms, {each:5.0f} ns a byte", flush=True)


def read_three_times(program, name, text, empty):
    """Prints the rows of a file: its tree, its types, its code."""
    marred, judged = with_unknown_import(text), with_nil(text)
    shown(name + ", tokens and tree", marred, seconds(program, marred, 4, b"refused: line 2: rule 1\n"), empty)
    fault = b"refused: line %d: rule 23\n" % (judged.count("\n") - 1)
    shown(name + ", and types", judged, seconds(program, judged, 4, fault), empty)
    shown(name + ", and code", text, seconds(program, text, 0, b""), empty)


def main():
    options = Words(__doc__)
    options.add_program()
    program = options.parse_args().program
    empty = seconds(program, "", 4, b"refused: line 1: syntax\n")
    files = [("whole language", whole, size) for size in SIZES]
    files += [("names of one function", names, size) for size in (29_000, 290_000, 1_040_000)]
    files += [("names of one file", globals_of, size) for size in SIZES]
    for name, make, size in files:
        read_three_times(program, name, make(size), empty)
    for text in map(printing, SIZES):
        shown("printing, read and run", text, seconds(program, text, 0, b""), empty)


if __name__ == "__main__":
    main()
