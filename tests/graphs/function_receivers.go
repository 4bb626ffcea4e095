package main

// Receivers of function types: from the operand, from what was put into interfaces, from what pointers point to, from the
// embedded field, from the operand of a method value, from the first argument of a method expression.

type D func(int) int
type X func(int) int
type P func(int) int
type W func(int) int
type V func(int) int
type E func(int) int

type S struct{ W }

type I interface{ Do() int }

func (f D) Do() int { return f(1) }
func (f X) Do() int { return f(2) }
func (f P) Do() int { return f(3) }
func (f W) Do() int { return f(4) }
func (f V) Do() int { return f(5) }
func (f E) Do() int { return f(6) }

func a(n int) int { return n }
func b(n int) int { return n }

func main() {
	_ = b
	D(a).Do()
	var i I = X(a)
	i.Do()
	p := P(a)
	var j I = &p
	j.Do()
	var k I = S{a}
	k.Do()
	v := V(a).Do
	v()
	e := E.Do
	e(a)
}
