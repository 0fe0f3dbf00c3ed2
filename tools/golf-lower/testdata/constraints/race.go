//go:build race

package main

func kind() string { return "race" }
