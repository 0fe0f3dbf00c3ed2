#!/usr/bin/env python3
"""Compares which files `golf` accepts with which Go's own checker does.

It takes the texts of crates/golf_tests_check and examples/, changes each a little, COUNT times in all, and hands each
text to the program and to go/types. It prints each text that the program accepts and Go refuses, except for the
differences that docs/LANGUAGE.md lists, and each that Go accepts and the program refuses by a rule that is mostly
Go's own (as a function that is no value here). At the end it prints how many there were of each kind. Variables and
imports that nothing uses count for nothing. It needs `go` on the path.
"""

import collections
import json
import os
import random
import re
import subprocess
import tempfile

from shared import CRATES, Words, examples, run, text_of

CHECKER = """package main

import (
	"encoding/json"
	"go/ast"
	"go/importer"
	"go/parser"
	"go/token"
	"go/types"
	"os"
	"regexp"
	"strconv"
)

var unread = regexp.MustCompile(`(declared|imported) (but|and) not used`)

func main() {
	var texts []string
	if err := json.NewDecoder(os.Stdin).Decode(&texts); err != nil {
		panic(err)
	}
	files := token.NewFileSet()
	packages := importer.ForCompiler(files, "source", nil)
	answers := make([]string, len(texts))
	for i, text := range texts {
		file, err := parser.ParseFile(files, "x.go", text, parser.SkipObjectResolution)
		if err != nil {
			answers[i] = "syntax: " + err.Error()
			continue
		}
		note := func(err error) {
			told := err.(types.Error)
			// Go 1.20 and newer say "declared and not used: x".
			unused := unread.MatchString(told.Msg)
			if answers[i] == "" && !unused {
				answers[i] = strconv.Itoa(files.Position(told.Pos).Line) + ": " + told.Msg
			}
		}
		rules := types.Config{Importer: packages, Error: note}
		rules.Check("main", files, []*ast.File{file}, nil)
	}
	json.NewEncoder(os.Stdout).Encode(answers)
}
"""

# What Go refuses and the language accepts (docs/LANGUAGE.md, "Where it differs from Go").
LISTED = re.compile(
    r"overflow|truncated|division by zero|must not be negative|untyped nil in assignment|no new variables|declare init"
    r"|sync\.Locker|unknown field _|no field or method _"
)
# The rules that are narrower than Go's: imports, names, types, initialisers, `go` and `defer`, built-in calls; and rule
# 6, since go/types asks for no `main`.
NARROWER = {1, 2, 4, 6, 7, 12, 18, 19, 21, 22}

KEYWORDS = set(
    "package import func type struct var const return if else for range go defer select case default break continue "
    "chan map switch interface goto fallthrough".split()
)
EXPRESSIONS = [
    "0", "-1", "true", "nil", '"a"', "x", "y", "c", "t", "s", "i", "m", "len(s)", "<-c", "f()", "f(1)", "&T{}",
    "new(T)", "t.a", "t.m()", "s[0]", "!b", "-x", "x + 1", "x == 1", "a && b", "[]int{1}", "make(chan int)",
    "make([]int, x)", "struct{}{}", "(x)", "(<-c)", "f", "T", "_", "fmt", "new(sync.Mutex)", "&sync.WaitGroup{}",
    "k.L", "int", "[]*T{t}", "[]chan int{c}", "x.y",
]
TYPES = [
    "int", "bool", "string", "struct{}", "*T", "*U", "T", "chan int", "<-chan int", "chan<- int", "chan bool",
    "[]int", "[]*T", "chan chan int", "chan<- chan int", "<-chan <-chan int", "*sync.Mutex", "*sync.WaitGroup",
    "*sync.RWMutex", "*sync.Cond", "float64",
]
STATEMENTS = [
    "x := 1", "x = 1", "x := true", "y := x", "_ = x", "_ = nil", "x++", "x += y", "t.a = x", "s[0] = x", "c <- x",
    "c <- true", "<-c", "v := <-c", "v, ok := <-c", "v, _ := <-c", "_, _ = <-c", "v, ok = <-c", "x = <-c", "f()",
    "f(x)", "t.m()", "go f()", "go close(c)", "defer f(x)", "defer m.Unlock()", "close(c)", "return", "return x",
    "return nil", "return f()", "break", "continue", 'panic("a")', "panic(x)", "var x int", "var y = x",
    "var p *T = nil", "len(s)", "x", "(f())", "_++", "_ := x", "if x == 1 { }", "if b { return }", "for { }",
    "for { break }", "for x < 1 { x++ }", "for i := 0; i < 1; i++ { _ = i }", "for range s { }",
    "for _, e := range s { _ = e }", "for i := range c { _ = i }", "for i, e := range c { }", "for range x { }",
    "select { }", "select { default: }", "select { case <-c: }", "select { case c <- x: break }",
    "select { case x = <-c: }", "select { case x := <-c: _ = x }", "select { case x, ok := <-c: _ = ok }",
    "{ x := 1; _ = x }", "fmt.Println(x)", "fmt.Println(t)", "runtime.GC()", "runtime.SetFinalizer(t, nil)",
    "runtime.SetFinalizer(t, f)", "m.Lock()", "w.Add(x)", "w.Wait()", "k.Wait()", "k := sync.NewCond(m)",
    "m := new(sync.Mutex)", "c := make(chan int)", "t := &T{a: x}", "s := []int{x}", "init := 1", "len := 3",
]
DECLARATIONS = [
    "var g = 1", "var g = f", "var g int = len(h)", "var h = []int{1}", "var g *T", "const k = 5",
    "func g() int { for { } }", "func g(a, b int, c chan<- bool) *T { return nil }",
    "func (t *T) n(a int) bool { return a == t.a }", "func init() {}", "type U struct { a, b int; t *U }",
    "type T struct { a int }", "func f(int int) {}", 'import "fmt"', "func (t *U) a() {}",
]
OPERATORS = ["+", "-", "*", "/", "%", "==", "!=", "<", "<=", ">", ">=", "&&", "||", "=", ":=", "+="]

A_WORD = re.compile(r'(?<![\w."])(?:[A-Za-z_]\w*|\d+)(?!["\w])')
A_TYPE = re.compile(r"(?:\[\]|<-\s*chan\s+|chan\s*<-\s*|chan\s+)*(?:int|bool|string|\*\w+(?:\.\w+)?|struct\{\})")
AN_OPERATOR = re.compile(r"(?<= )(?:[-+*/%]|==|!=|<=?|>=?|&&|\|\||:?=|\+=)(?= )")


def texts():
    """Returns the files of the checker's tests, and the examples."""
    found = []
    for path in sorted((CRATES / "golf_tests_check" / "src").glob("*.rt")):
        for call, _, rows in re.findall(r'(expect\w*)\(\s*&rt,\s*r(#+)"(.*?)"\2', text_of(path), re.S):
            bodies = re.split(r"\n---[^\n]*\n", rows)[1:]
            found += [f"package main\nfunc main() {{\n{it}\n}}\n" if call.endswith("main") else it for it in bodies]
    return found + [text_of(path) for path in examples("*.go")]


def exchanged(text, pattern, others, chance):
    """Returns the text with another piece in one place where the pattern fits."""
    places = [it for it in pattern.finditer(text) if it.group() not in KEYWORDS]
    if not places:
        return text
    at = chance.choice(places)
    return text[:at.start()] + chance.choice(others or [it.group() for it in places]) + text[at.end():]


def with_statement(text, chance):
    """Returns the text with one statement more, in a body if there is one."""
    lines, depth, inside = text.split("\n"), 0, []
    for number, line in enumerate(lines):
        depth += line.count("{") - line.count("}")
        if depth > 0:
            inside.append(number + 1)
    lines.insert(chance.choice(inside or [len(lines)]), chance.choice(STATEMENTS))
    return "\n".join(lines)


def changed(text, chance):
    """Returns the text with one to three small changes."""
    for _ in range(chance.choice([1, 1, 1, 2, 2, 3])):
        kind = chance.random()
        if kind < 0.25:
            text = exchanged(text, A_WORD, None, chance)
        elif kind < 0.45:
            text = exchanged(text, A_WORD, EXPRESSIONS, chance)
        elif kind < 0.60:
            text = exchanged(text, A_TYPE, TYPES, chance)
        elif kind < 0.66:
            text = exchanged(text, AN_OPERATOR, OPERATORS, chance)
        elif kind < 0.72:
            text += "\n" + chance.choice(DECLARATIONS) + "\n"
        else:
            text = with_statement(text, chance)
    return text


def by_go(all_texts):
    """Returns what Go's checker says first of each text, which is nothing if it accepts it."""
    with tempfile.TemporaryDirectory() as folder:
        with open(f"{folder}/checker.go", "w", encoding="utf-8") as file:
            file.write(CHECKER)
        environment = dict(os.environ, GO111MODULE="off")
        subprocess.run(["go", "build", "-o", f"{folder}/checker", f"{folder}/checker.go"], check=True, env=environment)
        done = run([f"{folder}/checker"], json.dumps(all_texts), None)
        return json.loads(done.stdout)


def refusal(program, text):
    """Returns why the program refuses a text, or None if it runs it."""
    done = run([program, "run", "--turns", "1"], text)
    return done.stderr.decode(errors="replace").split("\n")[0] if done.returncode == 4 else None


def difference(refused, told):
    """Returns which kind of difference there is, or None if there is none or it is one of those that are listed."""
    if refused is None:
        return "accepted, refused by Go" if told and not LISTED.search(told) else None
    rule = re.search(r"rule (\d+)", refused)
    return f"refused by rule {rule[1]}, accepted by Go" if rule and int(rule[1]) not in NARROWER and not told else None


def main():
    options = Words(__doc__)
    options.add_program()
    options.add_made(2000)
    given = options.parse_args()
    chance, sources = random.Random(given.seed), texts()
    good = [text for text, told in zip(sources, by_go(sources)) if not told]
    kinds = [good, good, good, sources]
    tried = [changed(chance.choice(chance.choice(kinds)), chance) for _ in range(given.count)]
    counts, differences = collections.Counter(), collections.Counter()
    for text, told in zip(tried, by_go(tried)):
        refused = refusal(given.program, text)
        counts["accepted" if refused is None else "refused", "refused by Go" if told else "accepted by Go"] += 1
        kind = difference(refused, told)
        if kind:
            differences[kind] += 1
            print(f"== {kind}: {refused or told}\n{text}\n")
    for key, number in sorted(counts.items()):
        print(number, ", ".join(key))
    print(sum(differences.values()), "to look at", dict(differences))


if __name__ == "__main__":
    main()
