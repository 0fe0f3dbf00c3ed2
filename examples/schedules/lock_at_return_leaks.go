// A withdrawal that the balance does not cover returns without an unlock.
// The next withdrawal waits for ever for the mutex.
package main

import "sync"

var balance = 5

func withdraw(amount int, account *sync.Mutex) {
	account.Lock()
	if balance < amount {
		return
	}
	balance -= amount
	account.Unlock()
}

func main() {
	account := &sync.Mutex{}
	for n := 0; n < 2; n++ {
		go withdraw(4, account)
	}
	withdraw(1, account)
}
