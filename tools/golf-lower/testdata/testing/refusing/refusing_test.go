package refusing

import "testing"

func TestTempDir(t *testing.T) {
	dir := t.TempDir()
	c := complex(1, 2)
	t.Log(dir, real(c))
}

func TestFine(t *testing.T) {}
