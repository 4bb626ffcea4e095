package main

// Elements of arrays and slices are one place for all of their type.

type F func(int) int
type G func(int) int

func a(n int) int { return n }
func b(n int) int { return n }

func main() {
	x := []F{a}
	x[0](1)
	y := [2]G{}
	y[1] = b
	y[0](2)
	var z [][]F
	z[0][0](3)
	z[0][1:][0](4)
}
