package lower

import (
	"bufio"
	"io"
	"strconv"
	"strings"
)

// Mark is between the parts of a line that a lowered program writes one after the other.
const Mark = tie

// Decoder reads what a lowered program writes, and writes what the user's program writes.
//
// A line of the user's program may come in parts: between two parts, and behind the last one if the line does not end
// there, stands the mark ‿ as an operand of Println. A line that begins with ‿err is of standard error, one with ‿panic
// is what the panic that comes next tells, ‿byte and a number are one byte, ‿exit and a number the status of os.Exit, and
// ‿site and a number the place of the panic that comes next, which nobody has recovered.
type Decoder struct {
	Out, Err io.Writer
	Panic    string // what the last panic tells
	Exit     int    // the status of os.Exit, -1 if the program has not called it
	Site     int    // the number of the place of the last panic, -1 if there is none
}

// Copy decodes r to its end.
func (d *Decoder) Copy(r io.Reader) error {
	d.Exit, d.Site = -1, -1
	in := bufio.NewReader(r)
	for {
		line, err := in.ReadString('\n')
		if line != "" {
			if err := d.line(line); err != nil {
				return err
			}
		}
		if err == io.EOF {
			return nil
		}
		if err != nil {
			return err
		}
	}
}

// line decodes one line.
func (d *Decoder) line(line string) error {
	if !strings.Contains(line, tie) {
		_, err := io.WriteString(d.Out, line)
		return err
	}
	to := d.Out
	said := false
	if rest, ok := strings.CutPrefix(line, tie+"err "); ok {
		to, line = d.Err, rest
	} else if rest, ok := strings.CutPrefix(line, tie+"panic "); ok {
		said, line = true, rest
	} else if rest, ok := strings.CutPrefix(line, tie+"exit "); ok {
		d.Exit = number(rest)
		return nil
	} else if rest, ok := strings.CutPrefix(line, tie+"site "); ok {
		d.Site = number(rest)
		return nil
	}
	text := strings.TrimSuffix(line, " "+tie+"\n")
	if line == tie+"\n" {
		text = ""
	}
	text = strings.ReplaceAll(text, " "+tie+" ", "")
	if n, ok := strings.CutPrefix(text, tie+"byte "); ok {
		c, _ := strconv.Atoi(n)
		text = string([]byte{byte(c)})
	}
	if said {
		d.Panic += text
		return nil
	}
	_, err := io.WriteString(to, text)
	return err
}

// number is the number with which a text begins.
func number(s string) int {
	s, _, _ = strings.Cut(s, " ")
	n, _ := strconv.Atoi(s)
	return n
}

// PanicText puts what the panic tells in place of the mark.
func (d *Decoder) PanicText(line string) string {
	if rest, ok := strings.CutPrefix(line, "panic: "+tie); ok {
		return "panic: " + d.Panic + rest
	}
	return line
}
