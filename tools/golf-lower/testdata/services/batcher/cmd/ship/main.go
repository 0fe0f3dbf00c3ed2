// Command ship ships records in batches.
package main

import (
	"context"
	"fmt"
	"strings"
	"sync"
	"sync/atomic"
	"time"

	"example.com/batcher"
	"example.com/batcher/record"
)

func main() {
	var batches atomic.Int32
	var mu sync.Mutex
	var all []record.Record
	b := batcher.New(4, 10*time.Millisecond, func(_ context.Context, batch []record.Record) error {
		batches.Add(1)
		mu.Lock()
		defer mu.Unlock()
		all = append(all, batch...)
		for _, r := range batch {
			if r.Fields["name"] == "" {
				return fmt.Errorf("a record without a name")
			}
		}
		return nil
	})
	var wg sync.WaitGroup
	for i, name := range strings.Fields("tea bread milk salt oil rice pears") {
		wg.Add(1)
		go func() {
			defer wg.Done()
			r := record.Record{ID: i * 11, Fields: map[string]string{"name": name, "note": strings.Repeat(name[:1], i)}}
			if err := b.Add(context.Background(), r); err != nil {
				fmt.Println(err)
			}
		}()
	}
	wg.Wait()
	fmt.Print(record.Lines(all))
	fmt.Println(batches.Load() >= 2, len(all))
	fmt.Println(b.Add(context.Background(), record.Record{ID: 1}))
	b.Close()
	fmt.Println(b.Add(context.Background(), record.Record{}))
}
