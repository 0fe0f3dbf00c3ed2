// Command shop sells a pear.
package main

import (
	"fmt"

	"example.com/shop/internal/price"
	"example.com/shop/stock"
	"example.org/tax"
)

func main() {
	s := &stock.Stock{}
	s.Put("pear", 1)
	fmt.Println(s.Take("pear"), s.Take("pear"))
	fmt.Println(price.Text(tax.Add(1005, 20)), stock.Machine())
	for _, f := range tax.Adders([]int{10, 20, 30}) {
		fmt.Print(price.Text(f(100)), " ")
	}
	fmt.Println()
	orders := make(chan string)
	go deliver(orders)
	refund()
}

// deliver waits for an order that nobody gives.
func deliver(orders chan string) {
	fmt.Println("deliver", <-orders)
}
