package main

// Values of maps.

type F func(int) int
type G func(int) int

func a(n int) int { return n }
func b(n int) int { return n }

func main() {
	m := map[string]F{"a": a}
	m["b"](1)
	n := map[int]G{}
	n[0] = b
	if g, ok := n[1]; ok {
		g(2)
	}
}
