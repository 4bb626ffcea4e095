package main

// What panics is recovered.

type I interface{ M() int }
type A struct{}
type B struct{}

func (A) M() int { return 1 }
func (B) M() int { return 2 }

func main() {
	var other I = B{}
	_ = other
	defer func() {
		if i, ok := recover().(I); ok {
			i.M()
		}
	}()
	panic(A{})
}
