package main

// What is appended.

type F func(int) int
type G func(int) int

func a(n int) int { return n }
func b(n int) int { return n }

func main() {
	var x []F
	x = append(x, nil, a)
	x[1](1)
	y := []G{b}
	z := append([]G{}, y...)
	z[0](2)
}
