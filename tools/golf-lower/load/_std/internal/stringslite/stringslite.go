// Package stringslite: strings have no addresses; the rest is Go's own.
package stringslite

// Clone returns s: a string is never changed.
func Clone(s string) string { return s }
