package main

// Method values of an interface: the methods of the classes in the operand.

type I interface{ M() int }
type A struct{}
type B struct{}

func (A) M() int { return 1 }
func (B) M() int { return 2 }

func main() {
	var other I = B{}
	_ = other
	var i I = A{}
	f := i.M
	f()
}
