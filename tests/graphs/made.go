package main

// A value of a class that is made one of an interface.

type I interface{ M() int }
type A struct{}
type B struct{}

func (A) M() int { return 1 }
func (B) M() int { return 2 }

func main() {
	var i I = A{}
	i.M()
}
