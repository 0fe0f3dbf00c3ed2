// Package queue orders things by time.
package queue

import (
	"container/heap"
	"time"
)

// Item is something with a time.
type Item[T any] struct {
	Value T
	At    time.Time
	seq   uint64
	index int
}

// Queue has the item with the earliest time first; of equal times the one that came first.
type Queue[T any] struct {
	items items[T]
	seq   uint64
}

type items[T any] []*Item[T]

func (s items[T]) Len() int { return len(s) }

func (s items[T]) Less(i, j int) bool {
	if s[i].At.Equal(s[j].At) {
		return s[i].seq < s[j].seq
	}
	return s[i].At.Before(s[j].At)
}

func (s items[T]) Swap(i, j int) {
	s[i], s[j] = s[j], s[i]
	s[i].index, s[j].index = i, j
}

func (s *items[T]) Push(x any) {
	it := x.(*Item[T])
	it.index = len(*s)
	*s = append(*s, it)
}

func (s *items[T]) Pop() any {
	old := *s
	it := old[len(old)-1]
	old[len(old)-1] = nil
	*s = old[:len(old)-1]
	it.index = -1
	return it
}

// Add inserts a value.
func (q *Queue[T]) Add(at time.Time, v T) *Item[T] {
	q.seq++
	it := &Item[T]{Value: v, At: at, seq: q.seq}
	heap.Push(&q.items, it)
	return it
}

// Remove takes an item out. It says whether the item was there.
func (q *Queue[T]) Remove(it *Item[T]) bool {
	if it.index < 0 || it.index >= len(q.items) || q.items[it.index] != it {
		return false
	}
	heap.Remove(&q.items, it.index)
	return true
}

// Next is the first item, or nil.
func (q *Queue[T]) Next() *Item[T] {
	if len(q.items) == 0 {
		return nil
	}
	return q.items[0]
}

// Due takes out what is due.
func (q *Queue[T]) Due(now time.Time) (due []*Item[T]) {
	for it := q.Next(); it != nil && !it.At.After(now); it = q.Next() {
		due = append(due, heap.Pop(&q.items).(*Item[T]))
	}
	return due
}
