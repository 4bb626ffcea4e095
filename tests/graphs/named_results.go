package main

// Variables of results: what is assigned to them is given, and what is returned is in them.

func named() (f func(int) int) {
	f = a
	return
}

func late() (g func(int) int) {
	defer func() { g = b }()
	return nil
}

func seen() (h func(int) int) {
	defer func() { h(1) }()
	return a
}

func a(n int) int { return n }
func b(n int) int { return n }

func main() {
	named()(2)
	late()(3)
	seen()
}
