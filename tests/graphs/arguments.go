package main

// Arguments of a function, and of a call of a function value.

func call(f func(int) int) int { return f(1) }
func send(g func(int) int, n int) int { return g(2) }

func a(n int) int { return n }
func b(n int) int { return n }

func main() {
	call(a)
	h := send
	h(b, 3)
}
