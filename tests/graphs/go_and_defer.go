package main

// Calls that are started or put off are edges of the function in which that stands.

func a(n int) int { return n }
func b(n int) int { return n }

func main() {
	_ = b
	f := a
	go a(1)
	go f(2)
	defer b(3)
	defer f(4)
	go func(g func(int) int) { g(5); f(6) }(b)
}
