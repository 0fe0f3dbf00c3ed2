// Package good has tests that pass.
package good

// Add is the sum of two numbers.
func Add(a, b int) int { return a + b }
