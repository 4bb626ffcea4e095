package main

// Functions that were put into interfaces, by their type.

type F func(int) int

func a(n int) int { return n }
func b(n int) int { return n }

func main() {
	var x any = F(a)
	f := x.(F)
	f(1)
	var y any = b
	if g, ok := y.(F); ok {
		g(2)
	}
	switch v := y.(type) {
	case F:
		v(3)
	case func(int) int:
		v(4)
	}
}
