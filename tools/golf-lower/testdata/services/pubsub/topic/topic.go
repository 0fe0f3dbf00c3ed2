// Package topic has the names of topics, and patterns for them: a star is one part, two stars are any rest.
package topic

import "strings"

// Name is the name of a topic, as orders.paid.
type Name string

// Pattern matches names.
type Pattern struct{ parts []string }

// Parse reads a pattern.
func Parse(s string) Pattern { return Pattern{strings.Split(s, ".")} }

func (p Pattern) String() string { return strings.Join(p.parts, ".") }

// Matches says whether the name fits.
func (p Pattern) Matches(n Name) bool {
	rest := strings.Split(string(n), ".")
	for i, part := range p.parts {
		switch {
		case part == "**":
			return len(rest) >= i
		case i >= len(rest):
			return false
		case part != "*" && part != rest[i]:
			return false
		}
	}
	return len(rest) == len(p.parts)
}
