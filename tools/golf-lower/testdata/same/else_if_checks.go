package main

import "fmt"

// The condition of an else if is looked at, with all that may fail in it, only if the ones before it do not hold.

var xs = make([]bool, 1)

func through[T any](x T) T { return x }

func try(f func()) {
	defer func() {
		if r := recover(); r != nil {
			fmt.Println("recovered", r)
		}
	}()
	f()
	fmt.Println("behind")
}

func main() {
	for _, i := range []int{0, 1} {
		try(func() {
			if v := [2]string{"a", "b"}[i]; through(i == 0) {
				fmt.Println("first", v)
			} else if xs[i] {
				fmt.Println("second")
			} else {
				fmt.Println("third", v)
			}
		})
	}
	var p *struct{ n int }
	for i := range 3 {
		try(func() {
			if i == 0 {
				fmt.Println("first")
			} else if n := 6 / (i - 1); n > 3 {
				fmt.Println("second")
			} else if p.n > 0 {
				fmt.Println("third")
			}
		})
	}
}
