package main

import "fmt"

// A return in a range over a function sets named results before the iterator goes on.

func numbers(done *[]string, yield func(int) bool) {
	defer func() { *done = append(*done, "done") }()
	_ = yield(1) && yield(2) && yield(3)
}

func named() (n int, text string) {
	seq := func(yield func(int) bool) {
		defer func() { n += 1000; text += "!" }()
		_ = yield(1) && yield(2) && yield(3)
	}
	for x := range seq {
		if x == 2 {
			return x, fmt.Sprint("at ", x)
		}
	}
	return -1, "none"
}

func bare() (n int) {
	seq := func(yield func(int) bool) {
		defer func() { n *= 2 }()
		_ = yield(1) && yield(2)
	}
	for x := range seq {
		if n += x; n > 2 {
			return
		}
	}
	return -1
}

func unnamed() int {
	n := 5
	seq := func(yield func(int) bool) {
		defer func() { n++ }()
		yield(1)
	}
	for range seq {
		return n
	}
	return -1
}

func blank() (n int, _ error) {
	for x := range func(yield func(int) bool) { yield(4); n = 50 } {
		return x, nil
	}
	return 0, nil
}

func nested() (list []int, err error) {
	var done []string
	defer func() { err = fmt.Errorf("%v", done) }()
	for i := range func(yield func(int) bool) { numbers(&done, yield) } {
		for j := range func(yield func(int) bool) { numbers(&done, yield) } {
			if list = append(list, i*10+j); i*j == 2 {
				return append(list, -1), nil
			}
		}
	}
	return
}

func deferred() (n int) {
	defer func() { n += 7 }()
	for x := range func(yield func(int) bool) { yield(3); n *= 10 } {
		return x
	}
	return 1
}

func main() {
	fmt.Println(named())
	fmt.Println(bare(), unnamed(), deferred())
	fmt.Println(blank())
	fmt.Println(nested())
}
