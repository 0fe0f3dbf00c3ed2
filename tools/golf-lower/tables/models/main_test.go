package main

import (
	"os"
	"strings"
	"testing"

	"golflower/load"
)

func TestTheTableIsThatOfTheCode(t *testing.T) {
	list, err := load.Models()
	if err != nil {
		t.Fatal(err)
	}
	var sb strings.Builder
	write(&sb, list)
	text, err := os.ReadFile("../models.md")
	if err != nil {
		t.Fatal(err)
	}
	if sb.String() != string(text) {
		t.Error("tables/models.md is old: go run ./tables/models > tables/models.md")
	}
	for _, m := range list {
		if m.Why == "" {
			t.Errorf("%s: no reason", m.Package)
		}
	}
}
