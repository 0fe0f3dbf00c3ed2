// Command alarm rings at some times.
package main

import (
	"fmt"
	"log"
	"os"
	"time"

	"example.com/scheduler"
)

func main() {
	logger := log.New(os.Stdout, "alarm: ", 0)
	s := scheduler.Start()
	rang := make(chan string)
	ring := func(name string) func(time.Time) { return func(time.Time) { rang <- name } }
	for i, name := range []string{"tea", "bread", "post"} {
		if _, err := s.After(time.Duration(30-10*i)*time.Millisecond, name, ring(name)); err != nil {
			logger.Fatal(err)
		}
	}
	e, err := s.Every(time.Minute, -1, "never", ring("never"))
	fmt.Println(e != nil, err)
	for range 3 {
		logger.Printf("%-6q rings", <-rang)
	}
	fmt.Println("cancelled:", e.Cancel())
	s.Stop()
	_, err = s.After(time.Second, "gone", ring("gone"))
	logger.Println(err)
}
