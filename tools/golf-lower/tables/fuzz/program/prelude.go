package program

// prelude is what each program begins with.
const prelude = `package main

import (
	"cmp"
	"fmt"
	"iter"
	"slices"
)

type shape interface{ area(k int) int }

type box[T any] struct {
	v T
	n int
}

func (b *box[T]) put(v T) T {
	old := b.v
	b.v = v
	b.n++
	return old
}

func boxed[T any](v T) *box[T] { return &box[T]{v: v} }

type entry[K comparable, V any] struct {
	k K
	V V
}

func pick[T any](c bool, x, y T) T {
	if c {
		return x
	}
	return y
}

func id[T any](x T) T { return x }

func ref[T any](x T) *T { return &x }

func filled[T any](list ...T) chan T {
	c := make(chan T, len(list)+1)
	for _, x := range list {
		c <- x
	}
	return c
}

func through[T any](x T) T { return <-filled(x) }

func at[T any](l []T, i int) T {
	if len(l) == 0 {
		var none T
		return none
	}
	return l[mod(i, len(l))]
}

// lim is at most ten elements; what is appended to it gets memory of its own.
func lim[T any](l []T) []T {
	n := min(len(l), 10)
	return l[:n:n]
}

func has[K comparable, V any](m map[K]V, k K) bool {
	_, ok := m[k]
	return ok
}

func sorted[K cmp.Ordered, V any](m map[K]V) []K {
	var keys []K
	for k := range m {
		keys = append(keys, k)
	}
	slices.Sort(keys)
	return keys
}

func each[T any](l []T) iter.Seq2[int, T] {
	return func(yield func(int, T) bool) {
		for i, x := range l {
			if !yield(i, x) {
				return
			}
		}
	}
}

func upTo(n int) iter.Seq[int] {
	return func(yield func(int) bool) {
		for i := 0; i < n && yield(i); i++ {
		}
	}
}

func giving[R any](x R) func() R { return func() R { return x } }

func givingTo[P, R any](x R) func(P) R { return func(P) R { return x } }

func mod(i, n int) int { return ((i % n) + n) % n }

func small(f float64) float64 {
	if f >= 0 && f < 100 {
		return f
	}
	return 7
}

func sub(s string, i, j int) string {
	i, j = mod(i, len(s)+1), mod(j, len(s)+1)
	return s[min(i, j):max(i, j)]
}

func cut[T ~string](s T) T {
	if len(s) > 24 {
		return s[:24]
	}
	return s
}

func tick(n int) int {
	total += n
	names[0], names[1] = names[1], names[0]
	return total
}

func twice(n int) int { return 2 * n }

func inc(p *int) int {
	*p += 3
	return *p
}

func note(n int, s string) { fmt.Println("note", n, s) }

var (
	fuel  = 150
	total int
	names = []string{"x", "yy"}
)

`

// trying ends the prelude of a program that recovers.
const trying = `func try(n int, f func()) {
	defer func() {
		if r := recover(); r != nil {
			fmt.Println("recovered", n, r)
		}
	}()
	f()
}

`
