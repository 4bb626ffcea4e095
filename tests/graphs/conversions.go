package main

// Conversions between interfaces and between types of functions, assertions of an interface, parentheses.

type F func(int) int

type I interface{ M() int }
type J interface {
	M() int
	N() int
}
type A struct{}
type B struct{}

func (A) M() int { return 1 }
func (A) N() int { return 2 }
func (B) M() int { return 3 }
func (B) N() int { return 4 }

func a(n int) int { return n }
func b(n int) int { return n }

func main() {
	var other J = B{}
	_, _ = other, b
	f := F(a)
	(f)(1)
	var j J = A{}
	var i I = j
	i.M()
	k := i.(J)
	k.N()
	I(k).M()
}
