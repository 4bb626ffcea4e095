package main

// What is sent is received from every channel of the type, also where a select receives.

type F func(int) int
type G func(int) int

func a(n int) int { return n }
func b(n int) int { return n }

func main() {
	c := make(chan F, 2)
	c <- a
	f := <-c
	f(1)
	d := make(chan G, 2)
	select {
	case d <- b:
	default:
	}
	g, ok := <-d
	if ok {
		g(2)
	}
	select {
	case h := <-c:
		h(3)
	case g, ok = <-d:
		println(ok)
	default:
	}
}
