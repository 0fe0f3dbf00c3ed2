package main
import "fmt"
func main() {
	answer := 42
	largest := 9223372036854775807
	fmt.Println("answer", answer, true)
	fmt.Println("a tab\tand a \"quote\"", largest)
	fmt.Println()
}
