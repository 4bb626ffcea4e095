package main

// Results of a method of an interface.

type I interface {
	M() func(int) int
}
type A struct{}
type B struct{}

func (A) M() func(int) int  { return a }
func (*B) M() func(int) int { return nil }

func a(n int) int { return n }
func b(n int) int { return n }

func main() {
	_ = b
	var i I = A{}
	i = &B{}
	i.M()(1)
}
