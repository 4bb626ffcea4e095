package main

// Variables of packages and of functions: whatever is ever assigned to one is in it.

var global func(int) int

func a(n int) int { return n }
func b(n int) int { return n }

func main() {
	global = a
	global(1)
	var local = b
	local(2)
	once := a
	once = b
	once(3)
}
