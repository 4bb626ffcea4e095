package main

// Method values of declared methods.

type T struct{ n int }

func (t T) get(n int) int  { return t.n + n }
func (t *T) put(n int) int { return t.n - n }

func main() {
	t := T{1}
	f := t.get
	f(1)
	g := t.put
	g(2)
	h := (&t).get
	h(3)
}
