// Package sort: the functions on slices of any type are lowered where they are called, by the type of the slice, and then do
// what Go's do; the rest is Go's own.
package sort

import "math/bits"

func Slice(x any, less func(i, j int) bool)
func SliceStable(x any, less func(i, j int) bool)
func SliceIsSorted(x any, less func(i, j int) bool) bool

func swapper[E any](s []E) func(i, j int) {
	return func(i, j int) { s[i], s[j] = s[j], s[i] }
}

func slice[E any](s []E, less func(i, j int) bool) {
	pdqsort_func(lessSwap{less, swapper(s)}, 0, len(s), bits.Len(uint(len(s))))
}

func sliceStable[E any](s []E, less func(i, j int) bool) {
	stable_func(lessSwap{less, swapper(s)}, len(s))
}

func sliceIsSorted[E any](s []E, less func(i, j int) bool) bool {
	for i := len(s) - 1; i > 0; i-- {
		if less(i, i-1) {
			return false
		}
	}
	return true
}
