package main

import "fmt"

type T struct{}

func inner() any {
	type T struct{}
	return T{}
}

func try(f func()) {
	defer func() { fmt.Println(recover()) }()
	f()
}

func main() {
	try(func() { _ = inner().(T) })
	try(func() { _ = any(T{}).(T) })
	try(func() { _ = any(1).(T) })
	try(func() { _ = any(nil).(T) })
}
