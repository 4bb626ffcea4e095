package main

// The faults of a run are recovered too.

type E struct{}

func (E) Error() string { return "E" }

func main() {
	var other error = E{}
	_ = other
	defer func() {
		if err, ok := recover().(error); ok {
			println(err.Error())
		}
	}()
	var p *int
	*p = 1
}
