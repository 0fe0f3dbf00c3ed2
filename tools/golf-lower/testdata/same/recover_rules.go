package main

import (
	"errors"
	"fmt"
	"os"
	"strings"
)

// recover works only in a function that a deferred call names.
func helper() any { return recover() }

func inHelper() {
	defer func() { fmt.Println("outer", recover()) }()
	defer func() { fmt.Println("helper", helper()) }()
	panic("a")
}

func inLiteral() {
	defer func() { fmt.Println("outer", recover()) }()
	defer func() { func() { fmt.Println("literal", recover()) }() }()
	panic("b")
}

type handler struct{ name string }

func (h *handler) handle()           { fmt.Println(h.name, recover()) }
func (h handler) value(n int)        { fmt.Println(h.name, n, recover()) }
func (h handler) none()              { fmt.Println(h.name, helper()) }
func named(s string)                 { fmt.Println(s, recover()) }
func run(f func())                   { defer f(); panic("run") }
func method(h interface{ handle() }) { defer h.handle(); panic("method") }

type pair struct{ a, b int }

func structResult() pair {
	defer func() { recover() }()
	panic(1)
}

func twoResults() (int, string) {
	defer func() { recover() }()
	panic(1)
}

func namedResult() (n int, p pair) {
	defer func() { recover() }()
	n, p.a = 3, 4
	panic(1)
}

func changed() (err error) {
	defer func() {
		if r := recover(); r != nil {
			err = fmt.Errorf("changed: %v", r)
		}
	}()
	panic("c")
}

func again() (s string) {
	defer func() { s += fmt.Sprint(" third ", recover()) }()
	defer func() {
		s += fmt.Sprint(" second ", recover())
		panic("new")
	}()
	panic("old")
}

func order() {
	for i := 0; i < 3; i++ {
		defer func() { fmt.Println("deferred", i, recover()) }()
	}
	panic("order")
}

func loop() (n int) {
	for i := range 4 {
		func() {
			defer func() {
				if recover() != nil {
					n += i
				}
			}()
			if i%2 == 1 {
				panic(i)
			}
		}()
	}
	return n
}

func nothing() { fmt.Println("nothing", recover()) }

func itself() {
	defer func() { fmt.Println("itself", recover()) }()
	defer recover()
	panic("not recovered by a recover that is deferred itself")
}

func library() (err error) {
	defer func() { err = fmt.Errorf("%v", recover()) }()
	return errors.New(strings.Repeat("x", -1))
}

func main() {
	inHelper()
	inLiteral()
	run((&handler{"bound"}).handle)
	method(&handler{"interface"})
	func() { defer handler{"value"}.value(2); panic("v") }()
	func() {
		defer func() { fmt.Println("caught", recover()) }()
		defer handler{"none"}.none()
		panic("n")
	}()
	func() { defer named("named"); panic(errors.New("e")) }()
	fmt.Println(structResult())
	fmt.Println(twoResults())
	fmt.Println(namedResult())
	fmt.Println(changed())
	fmt.Println(again())
	order()
	fmt.Println(loop())
	nothing()
	itself()
	fmt.Println(library())
	defer os.Exit(0)
	panic("exit")
}
