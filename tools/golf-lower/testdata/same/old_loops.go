//go:build go1.20

// The build line names a version in which a loop has its variables once.
package main

import "fmt"

func main() {
	var all []func()
	for i := 0; i < 3; i++ {
		defer func() { fmt.Println("deferred", i) }()
		all = append(all, func() { i += 10; fmt.Println("later", i) })
	}
	for k, v := range []string{"a", "b"} {
		all = append(all, func() { fmt.Println(k, v) })
	}
	for _, f := range all {
		f()
	}
}
