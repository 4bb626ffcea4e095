package main

// What is copied.

type F func(int) int

func a(n int) int { return n }
func b(n int) int { return n }

func main() {
	_ = b
	x := [1]F{a}
	y := make([]F, 1)
	copy(y, x[:])
	y[0](1)
}
