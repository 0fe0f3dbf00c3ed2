package fmt

// These make the text of a value by one verb; they are written with the program, for the types in its interfaces.
func formatV(x any) string
func formatPlusV(x any) string
func formatD(x any) string
func formatS(x any) string
func formatT(x any) string
func formatQ(x any) string
func formatX(x any) string
func formatC(x any) string
func formatType(x any) string

// unsupported ends the program.
func unsupported(what string)

// kind is "s" for a string.
func kind(x any) string

// pad brings a text to a width.
func pad(s string, width int, minus, zero bool) string

// sprintf is Sprintf where the format or the operands are known at run time alone.
func sprintf(format string, args []any) string {
	out := ""
	arg := 0
	for i := 0; i < len(format); i++ {
		start := i
		for i < len(format) && format[i] != '%' {
			i++
		}
		out += format[start:i]
		if i == len(format) {
			break
		}
		i++
		plus, minus, zero := false, false, false
		for i < len(format) && (format[i] == '+' || format[i] == '-' || format[i] == '0') {
			plus = plus || format[i] == '+'
			minus = minus || format[i] == '-'
			zero = zero || format[i] == '0'
			i++
		}
		width := 0
		for i < len(format) && format[i] >= '0' && format[i] <= '9' {
			width = 10*width + int(format[i]-'0')
			i++
		}
		if i == len(format) {
			out += "%!(NOVERB)"
			break
		}
		c := format[i]
		if c == '%' {
			out += "%"
			continue
		}
		if arg >= len(args) {
			out += "%!" + string([]byte{c}) + "(MISSING)"
			continue
		}
		out += pad(verb(args[arg], c, plus), width, minus, zero)
		arg++
	}
	if arg < len(args) {
		unsupported("more operands than verbs")
	}
	return out
}

func verb(x any, c byte, plus bool) string {
	switch c {
	case 'v', 'w':
		if plus {
			return formatPlusV(x)
		}
		return formatV(x)
	case 'd':
		return formatD(x)
	case 's':
		return formatS(x)
	case 't':
		return formatT(x)
	case 'q':
		return formatQ(x)
	case 'x':
		return formatX(x)
	case 'c':
		return formatC(x)
	case 'T':
		return formatType(x)
	}
	unsupported("a verb that is known at run time alone, or one with flags")
	return ""
}

// sprint is Sprint, and Sprintln without the end of the line if line is true.
func sprint(args []any, line bool) string {
	out := ""
	for i, x := range args {
		if i > 0 && (line || kind(x) == "" && kind(args[i-1]) == "") {
			out += " "
		}
		out += formatV(x)
	}
	return out
}

// errorf is Errorf where the format or the operands are known at run time alone.
func errorf(format string, args []any) error {
	text := sprintf(format, args)
	arg := 0
	for i := 0; i+1 < len(format); i++ {
		if format[i] != '%' {
			continue
		}
		i++
		for i < len(format) && (format[i] == '+' || format[i] == '-' || format[i] >= '0' && format[i] <= '9') {
			i++
		}
		if i < len(format) && format[i] == 'w' && arg < len(args) {
			if err, ok := args[arg].(error); ok {
				return wrap(text, err)
			}
		}
		if i < len(format) && format[i] != '%' {
			arg++
		}
	}
	return &plainError{text}
}

type plainError struct{ text string }

func (e *plainError) Error() string { return e.text }
