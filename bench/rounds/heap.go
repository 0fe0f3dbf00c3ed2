package main

type Node struct {
	next *Node
	v    int
}

func main() {
	var head *Node
	for i := 0; i < 5000000; i++ {
		n := &Node{next: nil, v: i}
		n.next = head
		head = n
		if i%100 == 99 {
			head = nil
		}
	}
}
