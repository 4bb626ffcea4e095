package main

// Results, one by one, of functions and of values; also where they are the arguments of a call.

type F func() func(int) int

func both() (func(int) int, func(int) int) { return a, b }
func take(f, g func(int) int) { f(1); g(2) }
func one() func(int) int { return a }

func a(n int) int { return n }
func b(n int) int { return n }

func main() {
	f, g := both()
	f(3)
	g(4)
	take(both())
	one()(5)
	h := one
	h()(6)
}
