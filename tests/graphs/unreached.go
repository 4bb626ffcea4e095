package main

// What stands in a function that is never reached.

func a(n int) int { return n }
func b(n int) int { return n }

func never() {
	g := b
	g(1)
}

func main() {
	f := a
	f(2)
}
