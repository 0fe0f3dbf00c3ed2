package traced

import "strings"

// call is a call from the user's code into generated code that has not returned: its line, and the function around it.
type call struct {
	line int
	from string
}

// calls follows one goroutine through a run.
type calls struct {
	goroutine int
	lines     []string       // of the lowered text
	functions []string       // the function around each line
	user      func(int) bool // a line comes from a file of the user
	last      int            // the line of the goroutine's last turn
	open      []call
}

// Caller returns the line where the user's code has called the generated code in which a goroutine panics, or 0 if it is not
// known. The run is that of the words on the lowered text.
func Caller(run Tracer, text string, words []string, goroutine int, user func(line int) bool) int {
	_, bare := scheduleOf(words, mostCalls)
	c := &calls{goroutine: goroutine, lines: strings.Split(text, "\n"), user: user}
	c.functions = functionsOf(c.lines)
	ended := false
	err := run(text, bare, func(string) {}, func(line string) {
		if g, at, ok := takenBy(line); ok {
			c.take(g, at)
			return
		}
		ended = ended || strings.HasPrefix(line, "panic: ") || strings.HasPrefix(line, "fatal error: ")
	})
	if err != nil || !ended || len(c.open) == 0 {
		return 0
	}
	return c.open[len(c.open)-1].line
}

// mostCalls is the longest run of which a caller is found: nothing is kept of its turns.
const mostCalls = 10000000

// takenBy is the goroutine of a turn and its line. It reads what is read of a turn here, without regular expressions: a run
// has millions of turns.
func takenBy(line string) (goroutine, at int, ok bool) {
	if !strings.HasPrefix(line, "turn ") {
		return 0, 0, false
	}
	_, rest, ok := strings.Cut(line, ": goroutine ")
	g, rest, also := strings.Cut(rest, " at line ")
	n, _, _ := strings.Cut(rest, ",")
	return number(g), number(n), ok && also
}

// functionsOf are the names of the functions around the lines.
func functionsOf(lines []string) []string {
	var names []string
	name := ""
	for _, l := range lines {
		if rest, ok := strings.CutPrefix(l, "func "); ok {
			name, _, _ = strings.Cut(rest, "(")
		}
		names = append(names, name)
	}
	return names
}

// take takes a turn. Generated code that a panic leaves may run deferred functions of the user's: they return to no line
// that has called.
func (c *calls) take(goroutine, line int) {
	if goroutine != c.goroutine || line < 1 || line > len(c.lines) {
		return
	}
	from, to := c.last, line
	c.last = to
	if from == 0 || c.user(from) == c.user(to) {
		return
	}
	if c.user(from) {
		if strings.Contains(c.lines[from-1], c.functions[to-1]+"(") {
			c.open = append(c.open, call{from, c.functions[from-1]})
		}
		return
	}
	for i := len(c.open) - 1; i >= 0; i-- {
		if c.open[i].from == c.functions[to-1] {
			c.open = c.open[:i]
			return
		}
	}
}
