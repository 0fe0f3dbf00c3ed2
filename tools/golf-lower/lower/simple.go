package lower

import "strings"

// The forms of expressions of the subset that can be written twice.

// isName: the text is a name, or the way through fields from one.
func isName(x string) bool {
	for part := range strings.SplitSeq(x, ".") {
		if !isWord(part) {
			return false
		}
	}
	return true
}

// isWord: the text is one name.
func isWord(x string) bool {
	for i := 0; i < len(x); i++ {
		c := x[i]
		letter := c == '_' || 'a' <= c && c <= 'z' || 'A' <= c && c <= 'Z'
		if !letter && (i == 0 || c < '0' || c > '9') {
			return false
		}
	}
	return x != ""
}

// isLiteral: the text is a constant, nil or struct{}{}.
func isLiteral(x string) bool {
	switch x {
	case "true", "false", "nil", "struct{}{}":
		return true
	}
	if strings.HasPrefix(x, "(") && strings.HasSuffix(x, ")") {
		return isNumber(x[1 : len(x)-1])
	}
	return isNumber(x) || isQuoted(x)
}

// isNumber: the text is an integer in decimal, maybe with a minus.
func isNumber(x string) bool {
	x = strings.TrimPrefix(x, "-")
	return x != "" && strings.Trim(x, "0123456789") == ""
}

// isQuoted: the text is one string literal.
func isQuoted(x string) bool {
	if len(x) < 2 || x[0] != '"' {
		return false
	}
	for i := 1; i < len(x); i++ {
		switch x[i] {
		case '\\':
			i++
		case '"':
			return i == len(x)-1
		}
	}
	return false
}

// isSmall: the text can be read twice, and costs nothing.
func isSmall(x string) bool { return isName(x) || isLiteral(x) }

// replaceWords puts other words in place of whole names in a text.
func replaceWords(text string, replace func(string) string) string {
	var sb strings.Builder
	for i := 0; i < len(text); {
		n := 0
		for i+n < len(text) && isWord(text[i:i+n+1]) {
			n++
		}
		if n == 0 {
			sb.WriteByte(text[i])
			i++
			continue
		}
		sb.WriteString(replace(text[i : i+n]))
		i += n
	}
	return sb.String()
}
