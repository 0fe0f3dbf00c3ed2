package main

import "fmt"

// fmt in a program that recovers nothing: methods of nil pointers.

type careful struct{ n int }

func (p *careful) String() string {
	if p == nil {
		return "careful of nil"
	}
	return "careful"
}

type value struct{ n int }

func (v value) String() string { return fmt.Sprint("value", v.n) }

type blind struct{ n int }

func (*blind) Error() string { return "blind" }

type holder struct{ value }

func main() {
	var c *careful
	var v *value
	var b *blind
	var h *holder
	var err error = b
	fmt.Println(c, v, b, err, h, &value{3}, &holder{value{4}})
	fmt.Printf("%v %s %v\n", c, v, []any{v, b, c})
}
