// Only the files whose build constraints hold are of the package.
package main

import "fmt"

func main() { fmt.Println("os", name(), kind()) }
