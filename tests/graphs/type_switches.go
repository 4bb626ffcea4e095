package main

// The variable of a clause of a type switch: of an interface, of several types, of nil, and of the default.

type I interface{ M() int }
type J interface {
	M() int
	N() int
}
type A struct{}
type B struct{}

func (A) M() int { return 1 }
func (A) N() int { return 2 }
func (B) M() int { return 3 }
func (B) N() int { return 4 }

func main() {
	var other J = B{}
	_ = other
	var x I = A{}
	switch v := x.(type) {
	case J:
		v.N()
	case A, *B:
		println(1, v.M())
	case nil:
		println(2, v.M())
	default:
		println(3, v.M())
	}
}
