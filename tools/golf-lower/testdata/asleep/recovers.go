// A deferred function that recovers locks what its function has locked.
package main

import (
	"fmt"
	"sync"
)

var mu sync.Mutex

func report() {
	if r := recover(); r != nil {
		fmt.Println("recovered", r)
	}
	mu.Lock()
	mu.Unlock()
}

func work(n int) {
	defer report()
	mu.Lock()
	if n == 0 {
		panic("nothing")
	}
	mu.Unlock()
}

func main() {
	work(1)
	work(0)
}
