package main

import (
	"bytes"
	"errors"
	"fmt"
	"os"
	"os/exec"
	"path/filepath"
	"strconv"
	"strings"
)

// leak is a goroutine that is blocked for ever: the line where it waits, and the line that started it.
type leak struct{ wait, start int }

func (l leak) String() string { return fmt.Sprintf("line %d, started at line %d", l.wait, l.start) }

// leaks are leaks with how often each was found.
type leaks map[leak]int

// runner is the program that runs each of the programs by Go, many times at the same time, and writes Go's profile of leaks.
const runner = `package main

import (
	"os"
	"runtime/pprof"
	"strconv"
	"sync"
	"time"

	"tried/pace"
%s)

var programs = map[string]func(){
%s}

func main() {
	n, _ := strconv.Atoi(os.Args[2])
	pace.Slow = os.Args[3] == "slow"
	var wg sync.WaitGroup
	for range n {
		wg.Go(programs[os.Args[1]])
	}
	wg.Wait()
	time.Sleep(20 * time.Millisecond)
	pprof.Lookup("goroutineleak").WriteTo(os.Stdout, 2)
}
`

// pace is the package that lets goroutines wait now and then, as a slow machine does.
const pace = `package pace

import (
	"math/rand"
	"runtime"
	"time"
)

var Slow bool

func Step() {
	if !Slow {
		return
	}
	switch n := rand.Intn(100); {
	case n < 25:
		runtime.Gosched()
	case n < 50:
		time.Sleep(time.Duration(rand.Intn(600)) * time.Microsecond)
	case n < 60:
		time.Sleep(time.Duration(rand.Intn(3000)) * time.Microsecond)
	}
}
`

// build builds the programs of some seeds by Go as one, and returns the file.
func build(dir string, seeds []int64) (string, error) {
	var imports, entries strings.Builder
	var err error
	write := func(path, text string) {
		file := filepath.Join(dir, path)
		err = errors.Join(err, os.MkdirAll(filepath.Dir(file), 0o777), os.WriteFile(file, []byte(text), 0o666))
	}
	for _, s := range seeds {
		name := fmt.Sprintf("p%d", s)
		text := source(s, "import \"tried/pace\"", "func step() { pace.Step() }")
		text = strings.Replace(text, "package main\n", "package "+name+"\n", 1)
		write(name+"/p.go", strings.Replace(text, "\nfunc main() {", "\nfunc Main() {", 1))
		fmt.Fprintf(&imports, "\t%q\n", "tried/"+name)
		fmt.Fprintf(&entries, "\t%q: %s.Main,\n", name, name)
	}
	write("pace/pace.go", pace)
	write("main.go", fmt.Sprintf(runner, imports.String(), entries.String()))
	write("go.mod", "module tried\n\ngo 1.25\n")
	if err != nil {
		return "", err
	}
	cmd := exec.Command("go", "build", "-o", "tried", ".")
	cmd.Dir = dir
	cmd.Env = append(os.Environ(), experiment()...)
	if out, err := cmd.CombinedOutput(); err != nil {
		return "", fmt.Errorf("go build: %v\n%s", err, out)
	}
	return filepath.Join(dir, "tried"), nil
}

// byGo runs a program n times by Go, and adds the goroutines that Go's profile finds to leak.
func byGo(file string, seed int64, n int, pace string, found leaks) error {
	var out, errs bytes.Buffer
	cmd := exec.Command(file, fmt.Sprintf("p%d", seed), fmt.Sprint(n), pace)
	cmd.Stdout, cmd.Stderr = &out, &errs
	if err := cmd.Run(); err != nil {
		return fmt.Errorf("seed %d: %v\n%s", seed, err, errs.String())
	}
	for _, stack := range strings.Split(out.String(), "\n\n") {
		if l, ok := leakOf(stack); ok {
			found[l]++
		}
	}
	return nil
}

// leakOf reads the stack of a goroutine. It is not ok if the goroutine does not leak.
func leakOf(stack string) (leak, bool) {
	lines := strings.Split(strings.TrimSpace(stack), "\n")
	if !strings.Contains(lines[0], "(leaked)") {
		return leak{}, false
	}
	var l leak
	for i, line := range lines {
		n := lineOf(line)
		switch {
		case n == 0:
		case strings.HasPrefix(lines[i-1], "created by "):
			l.start = n
		case l.wait == 0:
			l.wait = n
		}
	}
	return l, l.wait > 0
}

// lineOf is the line of the program that a line of a stack tells, 0 if it tells none.
func lineOf(line string) int {
	_, rest, ok := strings.Cut(line, "/p.go:")
	if !ok {
		return 0
	}
	rest, _, _ = strings.Cut(rest, " ")
	n, _ := strconv.Atoi(rest)
	return n
}
