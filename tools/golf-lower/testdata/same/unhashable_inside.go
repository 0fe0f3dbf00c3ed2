// What has no hash is deep inside the key.
package main

import "fmt"

type pair struct {
	name string
	v    any
}

func main() {
	m := map[pair]int{{"a", 1}: 1}
	for _, v := range []any{1, "b", [2]any{1, pair{"c", 2}}, [2]any{1, pair{"c", []string{}}}} {
		fmt.Println(m[pair{"a", v}])
	}
}
