package sleepy

import (
	"testing"
	"time"
)

func TestSleeps(t *testing.T) {
	begin := time.Now()
	time.Sleep(time.Hour)
	if time.Since(begin) < time.Hour {
		t.Error("too early")
	}
}

func TestEndsAfterTheTest(t *testing.T) {
	go func() { time.Sleep(20 * time.Millisecond) }()
}

func TestWaitsInTime(t *testing.T) {
	done := make(chan bool)
	go func() {
		time.Sleep(time.Millisecond)
		done <- true
	}()
	select {
	case <-done:
	case <-time.After(time.Second):
		t.Fatal("too late")
	}
}

func TestSendsAfterTheTest(t *testing.T) {
	done := make(chan bool)
	go func() {
		time.Sleep(20 * time.Millisecond)
		done <- true
	}()
	select {
	case <-done:
	case <-time.After(10 * time.Millisecond):
	}
}
