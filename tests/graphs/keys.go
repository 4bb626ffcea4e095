package main

// Keys of maps.

type I interface{ M() int }
type J interface{ M() int }
type A struct{}
type B struct{}

func (A) M() int { return 1 }
func (B) M() int { return 2 }

func main() {
	m := map[I]int{A{}: 1}
	for i := range m {
		i.M()
	}
	n := map[J]int{}
	n[B{}]++
	for j := range n {
		j.M()
	}
}
