// A prime sieve of goroutines, a pipeline that is stopped early, and results gathered from several workers.
package main

func generate(out chan<- int, stop <-chan struct{}) {
	for n := 2; ; n++ {
		select {
		case out <- n:
		case <-stop:
			close(out)
			return
		}
	}
}

func filter(in <-chan int, out chan<- int, prime int) {
	for n := range in {
		if n%prime != 0 {
			out <- n
		}
	}
	close(out)
}

func squares(count int) <-chan int {
	out := make(chan int, 2)
	go func() {
		defer close(out)
		for i := 1; i <= count; i++ {
			out <- i * i
		}
	}()
	return out
}

func main() {
	stop := make(chan struct{})
	source := make(chan int)
	go generate(source, stop)
	var in <-chan int = source
	for i := 0; i < 12; i++ {
		prime := <-in
		print(prime, " ")
		out := make(chan int)
		go filter(in, out, prime)
		in = out
	}
	println()
	close(stop)
	left := 0
	for range in {
		left++
	}
	println("ended", left < 100)

	sum := 0
	for square := range squares(10) {
		sum += square
	}
	println("squares", sum)

	type result struct{ worker, value int }
	results := make(chan result)
	for w := 0; w < 4; w++ {
		go func(w int) { results <- result{w, w * w} }(w)
	}
	var values [4]int
	for range values {
		r := <-results
		values[r.worker] = r.value
	}
	println(values[0], values[1], values[2], values[3])
}
