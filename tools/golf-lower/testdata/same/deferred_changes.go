package main

import (
	"errors"
	"fmt"
)

// Deferred calls change results, recover, panic again, and run in loops.

var errLate = errors.New("late")

func named() (n int, err error) {
	defer func() {
		if r := recover(); r != nil {
			err = fmt.Errorf("%v: %w", r, errLate)
			n *= 2
		}
	}()
	defer func() { n++ }()
	for i := range 3 {
		defer func() { n += i }()
	}
	n = 10
	panic("first")
}

func again() (text string) {
	defer func() { text += fmt.Sprint("|", recover()) }()
	defer func() {
		defer func() { text += fmt.Sprint("inner ", recover()) }()
		panic("second")
	}()
	panic("first")
}

func replaced() (x any) {
	defer func() { x = recover() }()
	defer panic("third")
	defer func() { panic(fmt.Sprint("over ", recover())) }()
	panic("first")
}

func unnamed() int {
	n := 1
	defer func() { n = 100 }()
	return n
}

func pointers() (p *int) {
	n := 5
	defer func() { *p++ }()
	return &n
}

func nested(depth int) (out []int) {
	defer func() {
		if depth > 0 {
			out = append(out, depth)
		}
	}()
	if depth == 0 {
		return nil
	}
	return nested(depth - 1)
}

func methods() {
	s := []int{1}
	defer fmt.Println("kept", s, len(s))
	s = append(s, 2)
	s[0] = 9
	f := func() { fmt.Println("first") }
	defer f()
	f = func() { fmt.Println("other") }
	defer func(xs ...int) { fmt.Println(xs, len(xs)) }(s...)
	s[1] = 7
	var none func()
	defer func() { fmt.Println("recovered", recover()) }()
	defer none()
	fmt.Println("end")
}

func main() {
	n, err := named()
	fmt.Println(n, err, errors.Is(err, errLate))
	fmt.Println(again())
	fmt.Println(replaced())
	fmt.Println(unnamed(), *pointers(), nested(4))
	methods()
}
