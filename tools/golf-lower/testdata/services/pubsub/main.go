// Command pubsub hands orders to those who want them.
package main

import (
	"fmt"
	"sort"
	"sync"

	"example.com/pubsub/broker"
	"example.com/pubsub/topic"
)

type order struct {
	ID    int
	Price float64
}

func (o order) String() string { return fmt.Sprintf("order %d: %.2f", o.ID, o.Price) }

func main() {
	b := broker.New()
	var wg sync.WaitGroup
	var mu sync.Mutex
	var lines []string
	for _, pattern := range []string{"orders.*", "orders.paid", "**"} {
		s, err := b.Subscribe(pattern, 1, broker.Block)
		if err != nil {
			panic(err)
		}
		wg.Add(1)
		go func() {
			defer wg.Done()
			for m := range s.C {
				if m.Body == nil {
					s.Close()
					return
				}
				mu.Lock()
				lines = append(lines, fmt.Sprintf("%-11s %s: %v", pattern, m.Topic, m.Body))
				mu.Unlock()
			}
		}()
	}
	for i, name := range []topic.Name{"orders.new", "orders.paid", "stock.low"} {
		n, err := b.Publish(name, order{i, float64(i) * 1.5})
		fmt.Println(name, n, err)
	}
	for _, name := range []topic.Name{"orders.paid"} {
		b.Publish(name, nil)
	}
	wg.Wait()
	sort.Strings(lines)
	for _, l := range lines {
		fmt.Println(l)
	}
	b.Close()
	_, err := b.Publish("orders.new", 1)
	fmt.Println(err)
}
