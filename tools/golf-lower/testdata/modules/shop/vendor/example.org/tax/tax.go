// Package tax is a package of another module, in the vendor folder.
package tax

// Add adds the tax of some percent to a price in cents.
func Add(cents, percent int) int { return cents + cents*percent/100 }

// Adders makes a function for each percent. In the version of this module, 1.18, all see the last one.
func Adders(percents []int) []func(int) int {
	var fs []func(int) int
	for _, p := range percents {
		fs = append(fs, func(cents int) int { return Add(cents, p) })
	}
	return fs
}
