package main

import "fmt"

// The value of an assignment is evaluated before a pointer on its left side is followed, and so is one that is sent.

type node struct {
	list *[]int
	next *node
	v    int
	ch   chan int
	m    map[int]int
}

var (
	nums  []int
	p     *[]int
	n     *node
	total int
)

func try(f func()) {
	defer func() { fmt.Println(recover(), total) }()
	f()
}

func main() {
	try(func() { (*p)[1] = nums[total] })
	try(func() { (*p)[1], total = nums[total], 3 })
	try(func() { total, (*p)[1] = 1, nums[2] })
	try(func() { n.next.v = nums[0] })
	try(func() { n.next.v = 1 / total })
	try(func() { *n.list = nums[1:2] })
	try(func() { (*n.list)[nums[0]] = 4 / (total - 1) })
	try(func() { n.next.v += nums[0] })
	try(func() { n.m[nums[3]] = nums[1] })
	try(func() { n.m[3] += nums[1] })
	try(func() { n.ch <- nums[0] })
	try(func() { n.ch <- nums[0] + 1 })
	try(func() { n.next.next, n = n, nil })
	try(func() { var e any = 1; n.next.v = e.(fmt.Stringer).(interface{ v() int }).v() })
}
