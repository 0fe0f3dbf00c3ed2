// Values of a, b = x, y that Go's compiler evaluates at their store: an entry of a map is there before its value panics.
package main

import "fmt"

type box struct{ v, n int }
type tree struct {
	kids []box
	up   *tree
	m    map[int]int
}

func try(name string, f func()) {
	defer func() {
		if r := recover(); r != nil {
			fmt.Println(name, r)
		}
	}()
	f()
}

var m = map[int]box{}
var k = map[int]int{}
var ptrs = map[int]*box{}
var g int
var gs = []int{1, 2, 3}

func one() int { return 1 }

func result(s []int) (a int, m map[int]int) {
	defer func() { recover() }()
	m = map[int]int{}
	a, m[1] = 5, s[one()]
	return
}

func result2(s []int) (a int, b int) {
	defer func() { recover() }()
	a, b = 5, s[one()]
	return
}

func main() {
	var v uint8
	var none []box
	var nums []int
	var p *box
	var t *tree
	var i any = 3
	ix := 1
	zero := 0
	neg := -1
	try("a", func() { k[0], v = nums[ix], uint8(p.n) })
	try("b", func() { x := 0; x, k[1] = 1, nums[ix]; _ = x })
	try("c", func() { _, k[2] = 1, nums[ix] })
	try("d", func() { g, k[3] = 1, nums[ix] })
	try("e", func() { x := 0; x, k[4] = nums[ix], p.n; _ = x })
	try("f", func() { g, k[5] = nums[ix], p.n })
	try("g", func() { g, k[6] = nums[ix], 1/zero })
	try("h", func() { g, k[7] = 1, 1/zero })
	try("i", func() { g, k[8] = 1, 1<<neg })
	try("j", func() { k[9], v = 1<<neg, v })
	try("k", func() { k[10] = 1 << neg })
	try("l", func() { ptrs[11], v = i.(*box), v })
	try("m", func() { k[12], v = none[ix].n, v })
	try("n", func() { k[13], v = len(none[1:ix]), v })
	try("o", func() { k[one()+13], v = nums[ix], v })
	try("p", func() { t.m[15], v = nums[ix], v })
	try("q", func() { k[nums[ix]], v = p.n, v })
	try("r", func() { k[nums[ix]], g = 1, p.n })
	try("s", func() { k[17], v = k[1]+nums[ix], v })
	try("t", func() { k[18], v = nums[ix]+one(), v })
	try("u", func() { k[19], v = one()+nums[ix], v })
	try("v", func() { k[20], k[21] = nums[ix], nums[ix] })
	try("w", func() { k[22], k[23] = 1, nums[ix] })
	try("x", func() { gs[0], gs[5] = 7, 8 })
	try("y", func() { gs[1], k[24] = gs[9], gs[ix] })
	try("z", func() { x := 3; x, gs[nums[ix]] = 1, p.n; _ = x })
	try("A", func() { k[25], v = int(v)/zero+p.n, v })
	try("B", func() { m[26], v = box{nums[ix], 1}, v })
	try("C", func() { m[27], v = box{1, 1 / zero}, v })
	try("D", func() { k[28], v = (*p).n, v })
	try("E", func() { k[29], v = [2]int{1, nums[ix]}[0], v })
	try("F", func() { k[30], v = int([]byte("abc")[ix+5]), v })
	try("G", func() { k[31], v = int("abc"[ix+5]), v })
	try("H", func() { k[32], v = map[int]int{1: nums[ix]}[1], v })
	try("I", func() { k[33], v = func() int { return nums[ix] }(), v })
	try("J", func() { k[34], v = -nums[ix], v })
	try("K", func() { k[35], v = int(int8(nums[ix])), v })
	try("L", func() { k[36], v = len(t.kids), v })
	try("M", func() { ptrs[37], v = &none[ix], v })
	try("N", func() { ptrs[38], v = &box{nums[ix], 1}, v })
	try("O", func() { k[39], v = max(nums[ix], 1), v })
	var arr [3]int
	try("P", func() { k[40], v = arr[ix+4], v })
	try("Q", func() { l := [3]int{}; k[41], v = l[ix+4], v })
	try("R", func() { var nilmap map[int]int; nilmap[1], v = nums[ix], v })
	try("S", func() { var nilmap map[int]int; nilmap[1] = nums[ix] })
	try("T", func() { k[42], v = len([2]int(nums)), v })
	bs := map[int]bool{}
	try("U", func() { bs[43], v = nums[ix] > 1 && v > 2, v })
	try("V", func() { bs[44], v = nums[ix] > 1, v })
	as := map[int]any{}
	try("W", func() { as[45], v = nums[ix], v })
	ss := map[int]string{}
	try("X", func() { ss[46], v = "a"+fmt.Sprint(nums[ix]), v })
	try("Y", func() { ss[47], v = string(rune(nums[ix])), v })
	try("Z", func() { ss[48], v = "abc"[ix+5:], v })
	fmt.Println(m)
	fmt.Println(k)
	fmt.Println(len(ptrs), bs, as, ss)
	for key := range 60 {
		if _, ok := ptrs[key]; ok {
			fmt.Println("ptrs", key)
		}
	}
	fmt.Println(g, v, gs)
	fmt.Println(result(nil))
	fmt.Println(result2(nil))
}
