package main

func main() {
	s := make([]int, 1000)
	n := 5000000
	j := 0
	for i := 0; i < n; i++ {
		s[j] = s[j] + i
		j++
		if j == 1000 {
			j = 0
		}
	}
}
