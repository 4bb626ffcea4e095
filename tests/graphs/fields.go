package main

// A field is one place for all values of its struct type.

type S struct{ f, g func(int) int }

func a(n int) int { return n }
func b(n int) int { return n }

func main() {
	s := S{f: a}
	t := &S{}
	t.g = b
	t.f(1)
	s.g(2)
}
