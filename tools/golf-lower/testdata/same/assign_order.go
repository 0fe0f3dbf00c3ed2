package main

import "fmt"

var trace []string

func t[T any](s string, v T) T { trace = append(trace, s); return v }

func show() { fmt.Println(trace); trace = nil }

type s struct{ a, b, c int }

func (x *s) set(n int) *s { trace = append(trace, fmt.Sprint("set", n)); x.a = n; return x }

func two() (int, int) { trace = append(trace, "two"); return 1, 2 }

func catch(f func()) {
	defer func() {
		if r := recover(); r != nil {
			fmt.Println("caught", r)
		}
		show()
	}()
	f()
}

func main() {
	a := []int{10, 20, 30}
	i := 0
	i, a[i] = 1, 99
	fmt.Println(i, a)
	a[i], i = i, 2
	fmt.Println(i, a)
	a[0], a[0] = 5, 6
	fmt.Println(a)
	p := &s{1, 2, 3}
	q := p
	p, p.a = &s{7, 8, 9}, 100
	fmt.Println(*p, *q)
	x, y := 1, 2
	x, y = y, x+y
	fmt.Println(x, y)
	t("m", map[string]int{"a": 1})[t("k", "a")] += t("v", 2)
	show()
	t("arr", a)[t("ix", 1)] = t("val", 3)
	show()
	*t("ptr", &x) = t("v", 7)
	show()
	_ = s{c: t("c", 1), a: t("a", 2), b: t("b", 3)}
	show()
	_ = [...]int{2: t("2", 1), 0: t("0", 1), t("1", 1)}
	show()
	_ = map[int]int{t("k1", 1): t("v1", 1), t("k2", 2): t("v2", 2)}
	show()
	p.set(t("n", 1)).set(t("n2", 2)).b = t("b", 3)
	show()
	_ = t("l", false) && t("r", true) || t("o", true) && !t("n", false)
	show()
	_ = t("x", 1)+t("y", 2)*t("z", 3) == t("w", 7)
	show()
	fmt.Println(t("f", func(a, b int) int { trace = append(trace, "body"); return a + b })(t("a1", 1), t("a2", 2)))
	show()
	x = 1
	r := []int{x, func() int { x++; return x }(), x}
	fmt.Println(r)
	var arr [3]int
	arr[func() int { x = 0; return 1 }()] = x
	fmt.Println(arr, x)
	x += func() int { x = 50; return 1 }()
	fmt.Println(x)
	st := "a"
	st += func() string { st = "b"; return "c" }()
	fmt.Println(st)
	catch(func() { var m map[string]int; m[t("key", "a")] = t("value", 1) })
	catch(func() { var z []int; z[t("index", 5)] = t("value", 1) })
	catch(func() { var z *s; z.a = t("value", 1) })
	catch(func() { var z *s; z.a, x = t("value", 1), t("x", 2) })
	catch(func() { a[t("i", 9)], x = t("v", 1), t("w", 2) })
	catch(func() { x, a[t("i", 9)] = t("v", 123), t("w", 2) })
	fmt.Println(x)
	catch(func() { zero := 0; _ = t("a", 1) / zero * t("b", 2) })
	catch(func() { var f func(int); f(t("arg", 1)) })
	catch(func() { var e error; _ = t("s", "a") + e.Error() + t("t", "b") })
	catch(func() { _ = []int{t("a", 1), a[t("out", 7)], t("b", 2)} })
	catch(func() { var v any = "s"; _ = t("a", 1) + v.(int) + t("b", 2) })
	catch(func() { c := make(chan int, 1); t("chan", c) <- t("val", 1); close(t("c", c)) })
	catch(func() { a, b := two(); trace = append(trace, fmt.Sprint(a, b)) })
	catch(func() { var m map[string][]int; m[t("k", "a")][t("i", 0)] = t("v", 1) })
	catch(func() { m := map[string]int{}; m["a"], m["b"] = two(); fmt.Println(m) })
	catch(func() { copy(t("dst", a), t("src", []int{1})); fmt.Println(a) })
	catch(func() { fmt.Println(append(t("s", a[:1:1]), t("x", 1), t("y", 2))) })
	catch(func() {
		var pa *[3]int
		for i := range pa {
			fmt.Print(i)
		}
		fmt.Println(len(pa))
		for _, v := range pa {
			fmt.Println(v)
		}
	})
	catch(func() { defer t("deferred", func() { trace = append(trace, "run") })(); trace = append(trace, "body") })
	catch(func() { fmt.Println(min(t("a", 3), t("b", 1), t("c", 2))) })
	catch(func() { return })
	catch(func() { var e1, e2 any = []int{1}, []int{1}; fmt.Println(t("x", e1) == t("y", e2)) })
	catch(func() {
		switch t("tag", 2) {
		case t("1", 1), t("2", 2), t("3", 3):
		}
	})
	catch(func() {
		for i := t("init", 0); t("cond", i < 2); i = t("post", i+1) {
			trace = append(trace, "body")
		}
	})
}
