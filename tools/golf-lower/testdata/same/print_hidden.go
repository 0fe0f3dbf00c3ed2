package main

import (
	"errors"
	"fmt"
)

type level int

func (l level) String() string { return fmt.Sprintf("level %d", int(l)) }

type inner struct {
	B level
	c level
}

type outer struct {
	a inner
	A inner
	s []level
	S []level
	m map[level]level
	i any
	I any
}

type failed struct {
	code int
	err  error
}

func (f failed) Error() string { return fmt.Sprint("code ", f.code) }

// fmt asks the methods of exported fields alone, however deep they are.
func main() {
	x := outer{inner{1, 2}, inner{3, 4}, []level{5}, []level{6}, map[level]level{7: 8}, level(9), level(10)}
	fmt.Println(x)
	fmt.Printf("%v %+v %s %x\n", x, x.A, x.A.B, x.A)
	fmt.Println([]any{x.a, level(1), failed{1, nil}}, struct {
		e error
		E error
	}{failed{2, nil}, failed{3, nil}})
	fmt.Println(&x.A, &outer{}, []inner{{1, 2}}, map[string]inner{"k": {3, 4}})
	var e error = failed{4, errors.New("x")}
	fmt.Printf("%v %s %q %x %X\n", e, e, e, e, e)
	fmt.Printf("%x %X %d %5v|%q\n", level(11), level(12), level(13), level(14), level(15))
}
