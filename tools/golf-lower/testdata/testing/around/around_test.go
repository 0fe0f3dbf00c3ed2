package around

import (
	"fmt"
	"os"
	"testing"
)

var ready bool

func TestMain(m *testing.M) {
	ready = true
	status := m.Run()
	fmt.Println("torn down", status)
	os.Exit(status)
}

func TestReady(t *testing.T) {
	if !ready {
		t.Error("not set up")
	}
}

func TestWrong(t *testing.T) { t.Error("wrong") }
