package main

import (
	"errors"
	"fmt"
)

// fmt writes <nil> for a nil pointer whose method panics, and tells another panic of a method in the text.

type named struct{ n int }

func (p *named) String() string { return fmt.Sprint("named", p.n) }

type careful struct{ n int }

func (p *careful) String() string {
	if p == nil {
		return "careful of nil"
	}
	return "careful"
}

type value struct{ n int }

func (v value) String() string { return fmt.Sprint("value", v.n) }

type fault struct{ n int }

func (e *fault) Error() string { return fmt.Sprint("fault", e.n) }

type bad struct{}

func (bad) String() string { panic("bad text") }

type worse struct{ list []int }

func (w worse) Error() string { return fmt.Sprint(w.list[3]) }

type holder struct{ *value }

func main() {
	var n *named
	var c *careful
	var v *value
	var e *fault
	var err error = e
	fmt.Println(n, c, v, e, err)
	fmt.Println(bad{}, worse{}, []bad{{}}, &bad{})
	fmt.Printf("%s|%v|%s|%v\n", n, v, bad{}, worse{})
	fmt.Println([]*named{nil, {1}}[1], fmt.Sprint(n, 1, v), holder{})
	fmt.Println(fmt.Errorf("wrapped: %w", err), errors.Unwrap(fmt.Errorf("%w", err)) == err)
	func() {
		defer func() { fmt.Println("recovered", recover()) }()
		fmt.Println(err.Error())
	}()
	func() {
		defer func() { fmt.Println("recovered", recover()) }()
		fmt.Println(fmt.Sprint(bad{}) + bad{}.String())
	}()
}
