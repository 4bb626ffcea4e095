package main

// What pointers to a type point to is one place, and so is each variable of that type whose address is taken.

type F func(int) int

func a(n int) int { return n }
func b(n int) int { return n }

func main() {
	f := a
	p := &f
	(*p)(1)
	q := new(F)
	*q = b
	var g F
	r := &g
	_ = r
	g(2)
}
