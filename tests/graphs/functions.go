package main

// Functions and literals as values.

func a(n int) int { return n }
func b(n int) int { return n }

func main() {
	f := a
	f(1)
	g := func(n int) int { return n + 1 }
	g(2)
	b(3)
}
