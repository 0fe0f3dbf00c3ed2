package main

import (
	"bytes"
	"context"
	"errors"
	"fmt"
	"io"
	"os/exec"
	"strings"

	"golflower/lower"
)

// failed: the program could not be run, or it has been ended; its status says nothing.
func failed(err error) bool {
	var ee *exec.ExitError
	return err != nil && (!errors.As(err, &ee) || !ee.Exited())
}

// execute runs golf on the lowered text. What the program says is written while it runs.
func execute(ctx context.Context, w words, low *lower.Output, tests bool, stdout, stderr io.Writer) int {
	cmd := command(ctx, program("GOLF", "golf"), w.line()...)
	cmd.Stdin = strings.NewReader(low.Text)
	r := &reporter{low: low, tests: tests, all: w.chosen || w.threads, out: stderr, threads: w.threads}
	errs := &lines{out: stderr, told: "golf: ", line: r.early}
	cmd.Stderr = errs
	pipe, err := cmd.StdoutPipe()
	if err == nil {
		err = cmd.Start()
	}
	if status := childFault(ctx, stderr, err, nil, "GOLF", "golf"); status != 0 {
		return status
	}
	d := &lower.Decoder{Out: stdout, Err: stderr}
	written := d.Copy(pipe)
	if written != nil {
		io.Copy(io.Discard, pipe)
	}
	if status := childFault(ctx, stderr, cmd.Wait(), written, "GOLF", "golf"); status != 0 {
		return status
	}
	r.decoder, r.status = d, cmd.ProcessState.ExitCode()
	errs.end()
	if r.status == usage {
		return misused(w, stderr)
	}
	r.waits, r.caller = r.waiting(ctx, w), r.callers(ctx, r.again(w))
	return r.end()
}

// childFault is the status of golf-go if a program could not be run to its end, or if what it wrote could not be written, and
// 0 else. A line says why.
func childFault(ctx context.Context, stderr io.Writer, err, written error, variable, name string) int {
	switch {
	case ctx.Err() != nil:
		fmt.Fprintln(stderr, "golf-go: ended")
		return noRead
	case failed(err):
		fmt.Fprintln(stderr, startFault(variable, name, err))
		return noRead
	case written != nil:
		fmt.Fprintln(stderr, "golf-go:", written)
		return noWrite
	}
	return 0
}

// misused says which word the program that was run does not know.
func misused(w words, stderr io.Writer) int {
	fmt.Fprintf(stderr, "golf-go: %s (golf-go %s)\n", wrongWord(w.mode, w.golf), strings.TrimSpace(w.mode+" --help"))
	return usage
}

// lines hands on the lines of a program. What its launcher tells while it builds the program is written as it is.
type lines struct {
	out  io.Writer
	told string       // how the lines of the launcher begin
	line func(string) // takes a line without its end
	rest []byte       // the begin of a line that is not whole yet
}

func (l *lines) Write(b []byte) (int, error) {
	l.rest = append(l.rest, b...)
	for {
		i := bytes.IndexByte(l.rest, '\n')
		if i < 0 {
			return len(b), nil
		}
		text := string(l.rest[:i])
		l.rest = l.rest[i+1:]
		if l.told != "" && strings.HasPrefix(text, l.told) {
			fmt.Fprintln(l.out, text)
		} else {
			l.line(text)
		}
	}
}

// end hands on a last line that has no end.
func (l *lines) end() {
	if len(l.rest) > 0 {
		l.line(string(l.rest))
		l.rest = nil
	}
}
