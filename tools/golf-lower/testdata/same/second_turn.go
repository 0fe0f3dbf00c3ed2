package main

import "fmt"

// Of two operands that may panic, those of functions of Go's runtime come first, and so do literals. A function that is known at
// run time alone is read behind its arguments.

type pair struct{ a, b int }

type shape interface{ area(k int) int }

func (p pair) area(k int) int { return p.a * k }

func (p *pair) move(k int) int { return p.b + k }

type holder struct {
	f func(int, int) int
	s shape
}

var (
	nums  []int
	texts []string
	runes []rune
	sets  map[int]int
	anys  []any
	ptr   *pair
	s     shape
	h     *holder
	fs    []func(int) int
	n     = 7
	zero  int
)

func try(f func()) {
	defer func() { fmt.Println(recover()) }()
	f()
}

func main() {
	try(func() { fmt.Println(nums[1], texts[2]+"a") })
	try(func() { fmt.Println(nums[1] + sets[nums[2]]) })
	try(func() { fmt.Println(nums[1] + len(texts[2]+texts[3])) })
	try(func() { fmt.Println(nums[1] + int(string(runes[2])[0])) })
	try(func() { fmt.Printf("%d\n", nums[1]+sets[nums[2]]) })
	try(func() { fmt.Printf("%T\n", nums[1]+sets[nums[2]]) })
	try(func() { fmt.Println(nums[1] / zero) })
	try(func() { fmt.Println(nums[nums[2]], ptr.a) })
	try(func() { x := nums[1] + [2]int{nums[2], 3}[zero]; _ = x })
	try(func() { x := nums[1] + pair{nums[2], 3}.a; _ = x })
	try(func() { x := nums[1] + (&pair{nums[2], 3}).a; _ = x })
	try(func() { x := nums[1] + len(nums[2:5]); _ = x })
	try(func() { x := ptr.a + sets[1/zero]; _ = x })
	try(func() { x, y := nums[1], texts[2]+"a"; _, _ = x, y })
	try(func() { x := nums[1] > 3 == (texts[2] == texts[3]); _ = x })
	try(func() { x := nums[1] > 3 == (texts[2] == "abc"); _ = x })
	try(func() { x := nums[1] > 3 == (texts[2] < "abc"); _ = x })
	try(func() { x := nums[1] > 3 == (anys[2] == anys[3]); _ = x })
	try(func() { x := anys[2] == anys[3]; _ = x })
	try(func() { x := anys[2] != nums[3]; _ = x })
	try(func() { x := nums[1] > 3 == (anys[2] == nil); _ = x })
	try(func() { x := nums[1] > 3 == (pair{nums[2], 1} == pair{1, 2}); _ = x })
	try(func() { x := nums[1] > 3 && texts[2] < "abc"; _ = x })
	try(func() { x := []any{nums[1], texts[2] + "a"}; _ = x })
	try(func() { x := pair{nums[1], sets[nums[2]]}; _ = x })
	try(func() { s.area(nums[2]) })
	try(func() { s.area(n) })
	try(func() { h.f(nums[1], nums[2]) })
	try(func() { h.f(nums[1], sets[nums[2]]) })
	try(func() { h.s.area(nums[1]) })
	try(func() { h.s.area(n) })
	try(func() { fs[3](nums[1]) })
	try(func() { fs[3](nums[1] + sets[nums[2]]) })
	try(func() {
		if nums[1] > sets[nums[2]] {
			n++
		}
	})
	try(func() {
		for nums[1] > sets[nums[2]] {
			n++
		}
	})
	try(func() {
		switch nums[1] {
		case sets[nums[2]]:
			n++
		}
	})
	try(func() {
		switch n {
		case nums[1] + sets[nums[2]]:
			n++
		}
	})
	try(func() { n = nums[1] + sets[nums[2]] })
	try(func() { nums[zero] = nums[1] + sets[nums[2]] })
	try(func() { n = n<<nums[1] + sets[nums[2]] })
	try(func() { n = 1<<(zero-1) + sets[nums[2]] })
	fmt.Println(n)
}
