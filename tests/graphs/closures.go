package main

// Literals in a slice, and what they capture.

func a(n int) int { return n }
func b(n int) int { return n }

func main() {
	_ = b
	f := a
	fs := []func() int{}
	for i := 0; i < 2; i++ {
		fs = append(fs, func() int { return f(i) })
	}
	fs[1]()
}
