// Goroutines and channels: a pipeline, a pool of workers, a mutex made of a channel, a barrier, timeouts by a clock channel, and a bus.
package main

import (
	"errors"
	"runtime"
)

type job struct {
	id, cost int
}

type answer struct {
	job
	worker int
	err    error
}

var errRefused = errors.New("refused")

// generate sends the jobs and closes its channel.
func generate(n int) <-chan job {
	out := make(chan job)
	go func() {
		defer close(out)
		for i := 1; i <= n; i++ {
			out <- job{id: i, cost: i * i % 7}
		}
	}()
	return out
}

func work(number int, jobs <-chan job, answers chan<- answer, done chan<- struct{}) {
	defer func() { done <- struct{}{} }()
	for j := range jobs {
		a := answer{job: j, worker: number}
		if j.cost == 0 {
			a.err = errRefused
		}
		for i := 0; i < j.cost; i++ {
			runtime.Gosched()
		}
		answers <- a
	}
}

func pool(workers, n int) (total, refused int) {
	jobs, answers, done := generate(n), make(chan answer, workers), make(chan struct{})
	for w := 0; w < workers; w++ {
		go work(w, jobs, answers, done)
	}
	go func() {
		for w := 0; w < workers; w++ {
			<-done
		}
		close(answers)
	}()
	for a := range answers {
		if a.err == errRefused {
			refused++
			continue
		}
		total += a.cost
	}
	return
}

// mutex is a lock: whoever holds its one token holds it.
type mutex chan struct{}

func newMutex() mutex  { return make(mutex, 1) }
func (m mutex) lock()   { m <- struct{}{} }
func (m mutex) unlock() { <-m }

type account struct {
	mutex
	balance int
}

func (a *account) add(n int) {
	a.lock()
	defer a.unlock()
	old := a.balance
	runtime.Gosched()
	a.balance = old + n
}

func deposits(people, each int) int {
	a := &account{mutex: newMutex()}
	finished := make(chan int)
	for p := 0; p < people; p++ {
		go func(by int) {
			for i := 0; i < each; i++ {
				a.add(by)
			}
			finished <- by
		}(p)
	}
	for p := 0; p < people; p++ {
		<-finished
	}
	return a.balance
}

// sieve of functions: each stage lets through what its test accepts.
func stage(in <-chan int, keep func(int) bool) <-chan int {
	out := make(chan int, 2)
	go func() {
		for v := range in {
			if keep(v) {
				out <- v
			}
		}
		close(out)
	}()
	return out
}

func count(to int) <-chan int {
	out := make(chan int)
	go func() {
		for i := 0; i < to; i++ {
			out <- i
		}
		close(out)
	}()
	return out
}

func pipeline() (sum int) {
	in := count(200)
	for _, d := range [...]int{3, 5, 7} {
		d := d
		in = stage(in, func(v int) bool { return v%d != 0 })
	}
	for v := range in {
		sum += v
	}
	return sum
}

type message struct {
	topic string
	body  interface{}
}

// bus hands each message to those that asked for its topic.
type bus struct {
	in     chan message
	topics map[string][]chan message
	quit   chan bool
}

func newBus() *bus {
	return &bus{make(chan message), make(map[string][]chan message), make(chan bool)}
}

func (b *bus) subscribe(topics ...string) <-chan message {
	c := make(chan message, 8)
	for _, t := range topics {
		b.topics[t] = append(b.topics[t], c)
	}
	return c
}

func (b *bus) run() {
	for {
		select {
		case m := <-b.in:
			for _, c := range b.topics[m.topic] {
				select {
				case c <- m:
				default:
					println("full", m.topic)
				}
			}
		case <-b.quit:
			for _, list := range b.topics {
				for i := range list {
					list[i] = nil
				}
			}
			b.quit <- true
			return
		}
	}
}

func talk() {
	b := newBus()
	news, all := b.subscribe("news"), b.subscribe("news", "sport")
	go b.run()
	b.in <- message{"news", 1}
	b.in <- message{"sport", "two"}
	b.in <- message{topic: "news", body: nil}
	b.in <- message{"weather", true}
	b.quit <- true
	<-b.quit
	read := func(name string, c <-chan message) {
		for {
			select {
			case m, ok := <-c:
				if !ok {
					return
				}
				switch body := m.body.(type) {
				case int:
					println(name, m.topic, body)
				case string:
					println(name, m.topic, body)
				case nil:
					println(name, m.topic, "nothing")
				}
			default:
				return
			}
		}
	}
	read("news", news)
	read("all", all)
}

// barrier lets its goroutines go on when all have come.
type barrier struct {
	come, leave chan bool
	n           int
}

func newBarrier(n int) *barrier {
	b := &barrier{make(chan bool), make(chan bool), n}
	go func() {
		for {
			for i := 0; i < n; i++ {
				if _, ok := <-b.come; !ok {
					return
				}
			}
			for i := 0; i < n; i++ {
				b.leave <- true
			}
		}
	}()
	return b
}

func (b *barrier) wait() {
	b.come <- true
	<-b.leave
}

func rounds(n, times int) bool {
	b := newBarrier(n)
	var at [8]int
	right := true
	end := make(chan bool)
	for i := 0; i < n; i++ {
		go func(i int) {
			for r := 1; r <= times; r++ {
				at[i] = r
				b.wait()
				for j := 0; j < n; j++ {
					if at[j] < r {
						right = false
					}
				}
				b.wait()
			}
			end <- true
		}(i)
	}
	for i := 0; i < n; i++ {
		<-end
	}
	close(b.come)
	return right
}

func main() {
	total, refused := pool(3, 20)
	println("pool", total, refused)
	println("deposits", deposits(4, 25))
	println("pipeline", pipeline())
	talk()
	println("rounds", rounds(4, 5))
	var never chan int
	select {
	case v := <-never:
		println("never", v)
	case never <- 1:
		println("never")
	default:
		println("nothing is ready")
	}
}
