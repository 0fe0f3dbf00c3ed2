package verdict

import "strings"

// Split takes apart what the program of one test writes: what the test has printed, the word of its verdict, and its log. The
// word is "" if the test has not come to its end.
func Split(out, name string) (printed, word, log string) {
	at, head := -1, ""
	for _, w := range []string{"PASS", "FAIL", "SKIP"} {
		h := "--- " + w + ": " + name + "\n"
		if i := strings.LastIndex(out, h); i > at {
			at, head, word = i, h, w
		}
	}
	if at < 0 {
		return withoutEnd(out), "", ""
	}
	printed, rest := out[:at], out[at+len(head):]
	n := 0
	for n < len(rest) && rest[n] == ' ' { // the log is indented
		end := strings.IndexByte(rest[n:], '\n')
		if end < 0 {
			n = len(rest)
			break
		}
		n += end + 1
	}
	return printed + withoutEnd(rest[n:]), word, rest[:n]
}

// withoutEnd is the output without the line that ends it.
func withoutEnd(s string) string {
	for _, end := range []string{"PASS\n", "FAIL\n"} {
		if rest, ok := strings.CutSuffix(s, end); ok && (rest == "" || strings.HasSuffix(rest, "\n")) {
			return rest
		}
	}
	return s
}

// part is a part of a test, which Run has run, with its lines.
type part struct {
	name, word string
	lines      []string
}

// parts are the parts in the log of a test, those of a part behind it. The lines of the test itself are those of the first one,
// which has its name.
func parts(t *Test) []*part {
	all := []*part{{name: t.Name}}
	type level struct {
		indent int
		part   *part
	}
	open := []level{{-1, all[0]}}
	for _, l := range indented(t.Log) {
		text := strings.TrimLeft(l, " ")
		indent := len(l) - len(text)
		for len(open) > 1 && open[len(open)-1].indent >= indent {
			open = open[:len(open)-1]
		}
		if name, word, ok := partHead(text, t.Name); ok {
			p := &part{name: name, word: word}
			all = append(all, p)
			open = append(open, level{indent, p})
		}
		now := open[len(open)-1].part
		now.lines = append(now.lines, l)
	}
	return all
}

// partHead reads the line of a part.
func partHead(line, test string) (name, word string, ok bool) {
	for _, w := range []string{"PASS", "FAIL", "SKIP"} {
		if name, ok := strings.CutPrefix(line, "--- "+w+": "); ok && strings.HasPrefix(name, test+"/") {
			return name, w, true
		}
	}
	return "", "", false
}
