package main

// Method expressions.

type T struct{ n int }

func (t T) get(n int) int  { return t.n + n }
func (t *T) put(n int) int { return t.n - n }

func main() {
	f := T.get
	f(T{1}, 1)
	g := (*T).put
	g(&T{1}, 2)
	h := (*T).get
	h(&T{1}, 3)
}
