package main

// A field or an element whose address is taken.

type F func(int) int
type G func(int) int
type S struct{ f F }

func a(n int) int { return n }
func b(n int) int { return n }

func main() {
	s := S{}
	p := &s.f
	*p = a
	s.f(1)
	x := make([]G, 1)
	q := &x[0]
	*q = b
	x[0](2)
}
