// Primes below a limit by the sieve of Eratosthenes, and the gaps between them.
package main

func sieve(limit int) []int {
	crossed := make([]bool, limit)
	var primes []int
	for n := 2; n < limit; n++ {
		if crossed[n] {
			continue
		}
		primes = append(primes, n)
		for m := n * n; m < limit; m += n {
			crossed[m] = true
		}
	}
	return primes
}

func main() {
	primes := sieve(1000)
	println("primes below 1000:", len(primes))
	for _, p := range primes[:10] {
		print(p, " ")
	}
	println()
	widest, at := 0, 0
	for i := 1; i < len(primes); i++ {
		if gap := primes[i] - primes[i-1]; gap > widest {
			widest, at = gap, primes[i-1]
		}
	}
	println("widest gap:", widest, "after", at)
	twins := 0
	for i := 1; i < len(primes); i++ {
		if primes[i]-primes[i-1] == 2 {
			twins++
		}
	}
	println("twins:", twins)
}
