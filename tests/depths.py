#!/usr/bin/env python3
"""Runs files as deep as the language allows, with little stack and with little memory.

It makes files of 1 MB, each of one construct in itself as deep as it goes, and runs them by `run` and by `meaning` with
stacks of 8,192, 1,024, 256 and 64 kB (`ulimit -s`). No run may end by a signal, and each is to end as with the largest
stack. It prints the largest memory of these runs.

Then it runs the deepest counted nesting of each kind with 123 limits of address space from 2.5 to 20 MB (`ulimit -v`).
Each run is to end with status 8 and `out of memory`, or as it does without a limit, unless the system's loader cannot
load the program at all (status 127). The status is 1 if a run differs.
"""

import resource
import sys
import tempfile

from shared import Words, measured

SIZE = 1_000_000
STACKS = (8_192, 1_024, 256, 64)
SPACES = (*range(2_560, 9_000, 64), *range(9_000, 20_000, 512))
HEAD = "package main\n\n"
MAIN = "func main() {\n"
ONE = "func f() int {\n\treturn 1\n}\n\n"
SAME = "func f(x int) int {\n\treturn x\n}\n\n"
SHORT_NODE = "type node struct {\n\tn *node\n}\n\n"
NODE = ("type node struct {\n\tn *node\n\ts []*node\n}\n\nfunc (t *node) f() *node {\n\treturn t\n}\n\n" + MAIN
        + "\tx := &node{}\n\tx.n = x\n\tx.s = []*node{x}\n")


def brackets(core, link, tokens):
    """Returns an expression in 980 brackets with links behind each, of so many tokens, as many as the limit leaves."""
    return "(" * 980 + core + "".join(")" + link * ((990 - outer) // tokens) for outer in range(979, -1, -1))


def filled(head, line):
    """Returns a file of this line again and again, up to the size of the file."""
    return head + line * max(1, (SIZE - len(head)) // len(line)) + "}\n"


def chain(head, target, core, link, tokens):
    """Returns a file of as many statements of such an expression as 1 MB takes: one or two."""
    line = "\t" + target + brackets(core, link, tokens) + "\n"
    return head + line * max(1, SIZE // len(line)) + "}\n"


def chains():
    """Returns chains of left operands: name and file."""
    elements = HEAD + MAIN + "\ta := []int{1}\n"
    globals_ = HEAD + SHORT_NODE + "var a *node\nvar b = " + brackets("a", ".n", 2) + "\n\n" + MAIN + "}\n"
    return (
        ("sums", chain(HEAD + MAIN, "_ = ", "1", "+1", 2)),
        ("conjunctions", chain(HEAD + MAIN, "_ = ", "true", "&&true", 3)),
        ("selectors", chain(HEAD + NODE, "x = ", "x", ".n", 2)),
        ("calls of methods", chain(HEAD + NODE, "x = ", "x", ".f()", 4)),
        ("elements of fields", chain(HEAD + NODE, "x = ", "x", ".s[0]", 4)),
        ("calls of calls, refused", chain(HEAD + ONE + MAIN, "_ = ", "f", "()", 2)),
        ("elements of elements, refused", chain(elements, "_ = ", "a", "[0]", 2)),
        ("global of selectors", globals_),
        ("else if", HEAD + MAIN + "\t" + "if x := 1; x == 2 {} else " * (SIZE // 26) + "{}\n}\n"),
    )


def nested():
    """Returns the deepest counted nesting of each kind: name, head, line."""
    return (
        ("parentheses", HEAD + MAIN, "_ = " + "(" * 992 + "1" + ")" * 992 + "\n"),
        ("negations", HEAD + MAIN + "x := true\n", "x = " + "!" * 992 + "x\n"),
        ("comparisons", HEAD + MAIN, "_ = " + "(" * 990 + "true" + " == true)" * 990 + "\n"),
        ("arguments", HEAD + SAME + MAIN, "_ = " + "f(" * 496 + "1" + ")" * 496 + "\n"),
        ("indices", HEAD + MAIN + "a := []int{0}\n", "_ = " + "a[" * 496 + "0" + "]" * 496 + "\n"),
        ("literals", HEAD + SHORT_NODE + MAIN, "_ = " + "&node{n: " * 198 + "nil" + "}" * 198 + "\n"),
        ("slices", HEAD + MAIN, "{\nvar x " + "[]" * 495 + "int\n}\n"),
        ("channels", HEAD + MAIN, "{\nvar x " + "chan " * 990 + "int\n}\n"),
        ("blocks", HEAD + MAIN, "{" * 994 + "}" * 994 + "\n"),
        ("conditions", HEAD + MAIN, "if true {" * 331 + "}" * 331 + "\n"),
        ("loops", HEAD + MAIN, "for false {" * 331 + "}" * 331 + "\n"),
        ("selects", HEAD + MAIN, "select {default: " * 248 + "}" * 248 + "\n"),
    )


def end_of(program, word, text, limited=None, kilobytes=0):
    """Returns status, output and errors of a run with a limit, and its largest memory in MB."""
    def limit():
        if limited is not None:
            resource.setrlimit(limited, (kilobytes << 10, kilobytes << 10))

    with tempfile.TemporaryFile() as output, tempfile.TemporaryFile() as errors:
        took = measured([program, word], text, output, errors, limit)
        output.seek(0)
        errors.seek(0)
        return (took.status, output.read(), errors.read()), took.megabytes


def differs_by_stack(program, name, text):
    """Prints how a file ends by each stack, and returns whether that differs."""
    differs, most = False, 0
    for word in ("run", "meaning"):
        found = [end_of(program, word, text, resource.RLIMIT_STACK, stack) for stack in STACKS]
        ends, most = [end for end, _ in found], max(most, *(memory for _, memory in found))
        differs = differs or any(end != ends[0] or end[0] < 0 for end in ends)
        statuses = " ".join(str(end[0]) for end in ends)
        print(f"{name:<30} {word:<7} {statuses}, most memory {most:.0f} MB{'  DIFFERS' * differs}", flush=True)
    return differs


def differs_by_space(program, name, text):
    """Prints how a file ends by each limit of memory, and returns whether it ends otherwise than it may."""
    whole, _ = end_of(program, "run", text)
    ends = [end_of(program, "run", text, resource.RLIMIT_AS, space)[0] for space in SPACES]
    unloaded = [end for end in ends if end[0] == 127]
    short = [end for end in ends if end[0] == 8 and end[2].endswith(b"out of memory\n")]
    others = [end for end in ends if end not in unloaded and end not in short and end != whole]
    same = len(ends) - len(unloaded) - len(short) - len(others)
    print(f"{name:<30} {len(ends)} limits of memory: {len(unloaded)} not loaded, {len(short)} out of memory, "
          f"{same} as without a limit, {len(others)} others {sorted({end[0] for end in others}) or ''}", flush=True)
    return bool(others)


def main():
    options = Words(__doc__)
    options.add_program()
    program = options.parse_args().program
    files = [*chains(), *((name, filled(head, line)) for name, head, line in nested())]
    differ = [differs_by_stack(program, name, text) for name, text in files]
    differ += [differs_by_space(program, name, head + line + "}\n") for name, head, line in nested()]
    return 1 if any(differ) else 0


if __name__ == "__main__":
    sys.exit(main())
