package main

import (
	"runtime"
	"time"
)

func main() {
	go func() {
		time.Sleep(time.Hour)
	}()
	time.Sleep(time.Millisecond)
	runtime.GC()
}
