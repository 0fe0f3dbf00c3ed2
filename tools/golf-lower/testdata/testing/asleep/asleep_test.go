package asleep

import (
	"sync"
	"testing"
)

func transfer(from, to *sync.Mutex, done chan bool) {
	from.Lock()
	to.Lock()
	to.Unlock()
	from.Unlock()
	done <- true
}

func TestNobodySends(t *testing.T) {
	c := make(chan int)
	<-c
}

func TestLocksInTwoOrders(t *testing.T) {
	var a, b sync.Mutex
	done := make(chan bool)
	go transfer(&a, &b, done)
	go transfer(&b, &a, done)
	<-done
	<-done
}

// The goroutine begins with some work, so that most runs end well.
func TestLocksInTwoOrdersNowAndThen(t *testing.T) {
	var a, b sync.Mutex
	done := make(chan bool, 2)
	go func() {
		sum := 0
		for i := range 40 {
			sum += i
		}
		transfer(&a, &b, done)
	}()
	transfer(&b, &a, done)
	<-done
	<-done
}
