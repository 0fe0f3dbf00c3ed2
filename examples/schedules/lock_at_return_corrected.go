// A deferred call unlocks the mutex, also if the balance does not cover the withdrawal.
// So the next withdrawal gets the mutex.
package main

import "sync"

var balance = 5

func withdraw(amount int, account *sync.Mutex) {
	account.Lock()
	defer account.Unlock()
	if balance < amount {
		return
	}
	balance -= amount
}

func main() {
	account := &sync.Mutex{}
	for n := 0; n < 2; n++ {
		go withdraw(4, account)
	}
	withdraw(1, account)
}
