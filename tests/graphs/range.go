package main

// What a range gives: elements, values of maps, and what comes from channels; also where it is assigned.

type F func(int) int
type G func(int) int
type H func(int) int
type K func(int) int

func a(n int) int { return n }
func b(n int) int { return n }

func main() {
	for _, f := range []F{a} {
		f(1)
	}
	for _, g := range &[1]G{b} {
		g(2)
	}
	for _, h := range map[string]H{"x": a} {
		h(3)
	}
	c := make(chan K, 1)
	c <- b
	close(c)
	for k := range c {
		k(4)
	}
	var v func(int) int
	for _, v = range []G{} {
		v(5)
	}
}
