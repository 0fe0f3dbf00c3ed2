package parallel

import (
	"sync"
	"testing"
)

func TestTogether(t *testing.T) {
	var meet sync.WaitGroup
	meet.Add(2)
	for _, name := range []string{"a", "b"} {
		t.Run(name, func(t *testing.T) {
			t.Parallel()
			meet.Done()
			meet.Wait()
		})
	}
}

func TestBeside(t *testing.T) { t.Parallel() }
