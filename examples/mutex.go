// A goroutine locks a mutex and waits for a message that never comes. Whoever wants the mutex waits with it.
//
//	collection 1: marked 0, reported 2, kept 2, reclaimed 0, objects 3
//	goroutine 2: chan receive at line 21, started at line 32
//	goroutine 3: sync.Mutex.Lock at line 25, started at line 35
package main

import (
	"runtime"
	"sync"
)

type account struct {
	mu      *sync.Mutex
	balance int
}

func (a *account) settle(news chan int) {
	a.mu.Lock()
	defer a.mu.Unlock()
	a.balance += <-news
}

func (a *account) deposit(amount int) {
	a.mu.Lock()
	a.balance += amount
	a.mu.Unlock()
}

func open() {
	a := &account{mu: &sync.Mutex{}}
	go a.settle(make(chan int))
	for i := 0; i < 20; i++ {
	}
	go a.deposit(5)
}

func main() {
	open()
	for i := 0; i < 50; i++ {
	}
	runtime.GC()
}
