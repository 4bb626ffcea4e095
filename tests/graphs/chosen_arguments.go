package main

// Arguments of a method of an interface, behind its receiver; they go to every class that implements it.

type I interface {
	M(f func(int) int) int
}
type A struct{}
type B struct{}

func (A) M(f func(int) int) int { return f(1) }
func (B) M(g func(int) int) int { return g(2) }

func a(n int) int { return n }
func b(n int) int { return n }

func main() {
	var i I = A{}
	i.M(a)
	var j I = B{}
	j.M(b)
	var k I
	k.M(a)
}
