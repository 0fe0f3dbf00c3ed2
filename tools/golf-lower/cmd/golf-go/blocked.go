package main

import (
	"slices"
	"strconv"
	"strings"

	"golflower/lower"
	"golflower/traced"
	"golflower/verdict"
)

// reported reads the line of golf on a blocked goroutine. What the line says beside its places is the rest.
func reported(low *lower.Output, line string) (g verdict.Goroutine, rest string, ok bool) {
	head, rest, _ := strings.Cut(strings.TrimPrefix(line, "goroutine "), ": ")
	number, err := strconv.Atoi(head)
	wait, rest, ok := strings.Cut(rest, " at line ")
	at, rest := leadingNumber(rest)
	if err != nil || !ok || at == 0 {
		return verdict.Goroutine{}, "", false
	}
	start := 0
	if after, found := strings.CutPrefix(rest, ", started at line "); found {
		start, rest = leadingNumber(after)
	}
	g = verdict.Goroutine{Number: number, Wait: wait, At: placeOf(low, at), On: thingsAt(low, wait, at)}
	g.Started = startOf(low, start)
	return g, rest, true
}

// leadingNumber is the number with which a text begins, 0 if it begins with none, and the text behind it.
func leadingNumber(text string) (int, string) {
	end := 0
	for end < len(text) && '0' <= text[end] && text[end] <= '9' {
		end++
	}
	n, _ := strconv.Atoi(text[:end])
	return n, text[end:]
}

// waiter is a goroutine of a run in which all are asleep.
func waiter(low *lower.Output, w *traced.Wait) verdict.Goroutine {
	g := verdict.Goroutine{Number: w.Goroutine, Wait: w.Kind, At: placeOf(low, w.Line), On: thingsAt(low, w.Kind, w.Line)}
	g.Started = startOf(low, w.Started)
	if w.Holder > 0 {
		locked := placeOf(low, w.Locked)
		g.Holder, g.Locked = w.Holder, &locked
	}
	return g
}

// startOf is the place where a goroutine was started, nil for goroutine 1, and for that of a test.
func startOf(low *lower.Output, line int) *verdict.Place {
	if line == 0 {
		return nil
	}
	p := placeOf(low, line)
	if p.Line == 0 && strings.HasPrefix(p.Function, "testing.") {
		return nil
	}
	return &p
}

// placeOf is the place of a line of the lowered file. Generated code has the name of its function.
func placeOf(low *lower.Output, line int) verdict.Place {
	if line >= 1 && line <= len(low.Lines) && low.Lines[line-1].Line > 0 {
		return userPlace(low.Lines[line-1])
	}
	name := low.FunctionAt(line)
	if known := low.Generated(name); known != "" {
		name = known
	}
	return verdict.Place{Function: name}
}

func userPlace(p lower.Place) verdict.Place {
	return verdict.Place{File: p.File, Line: p.Line, Column: p.Column, Function: p.Func}
}

// mostMade is how many places are told where one thing may have been made.
const mostMade = 2

// thingsAt are the things on which a goroutine may wait at a line of the lowered file.
func thingsAt(low *lower.Output, wait string, line int) []verdict.Thing {
	var list []verdict.Thing
	for _, t := range low.Things[line] {
		if !strings.HasPrefix(wait, t.Kind) || t.Text == "" {
			continue
		}
		thing := verdict.Thing{Name: t.Text, Made: madeAt(t.Made)}
		same := func(o verdict.Thing) bool { return o.String() == thing.String() }
		if !slices.ContainsFunc(list, same) {
			list = append(list, thing)
		}
	}
	return list
}

// madeAt are the places where a thing was made. Many places, and those of generated code, say nothing.
func madeAt(places []lower.Place) []verdict.Place {
	var list []verdict.Place
	for _, p := range places {
		if p.Line == 0 {
			return nil
		}
		list = append(list, userPlace(p))
	}
	list = slices.Compact(list)
	if len(list) > mostMade {
		return nil
	}
	return list
}
