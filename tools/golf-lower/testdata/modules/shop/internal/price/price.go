// Package price is used by the module alone.
package price

import "fmt"

// Text is a price in words.
func Text(cents int) string { return fmt.Sprintf("%d.%02d", cents/100, cents%100) }
