package main

func main() {
	c := make(chan int)
	var r <-chan int = c
	switch c {
	case r:
		println("same")
	}
	switch r {
	case c:
		println("same2")
	}
}
