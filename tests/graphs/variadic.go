package main

// Arguments that are put into a slice.

func each(n int, fs ...func(int) int) {
	for _, f := range fs {
		f(1)
	}
}

func two() (int, func(int) int) { return 1, a }

func a(n int) int { return n }
func b(n int) int { return n }

func main() {
	_ = b
	each(2)
	each(two())
}
