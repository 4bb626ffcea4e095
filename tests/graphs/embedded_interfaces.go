package main

// Methods of an embedded interface: those of the classes in its field.

type I interface{ M() int }
type A struct{}
type B struct{}

func (A) M() int { return 1 }
func (B) M() int { return 2 }

type S struct{ I }
type T struct{ *S }

func main() {
	var other I = B{}
	_ = other
	var i I = S{A{}}
	i.M()
	var j I = T{&S{}}
	j.M()
	s := S{}
	s.M()
	f := T.M
	f(T{})
	g := s.M
	g()
}
