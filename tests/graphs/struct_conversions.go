package main

// Structs that are converted: fields of types that differ in names or tags are one.

type S struct{ f func(int) int }
type T struct{ f func(int) int }
type U struct {
	f func(int) int "tag"
}
type V struct{ f, g func(int) int }

func a(n int) int { return n }
func b(n int) int { return n }

func main() {
	s := S{a}
	t := T(s)
	t.f(1)
	U(s).f(2)
	v := V{f: b}
	v.f(3)
}
