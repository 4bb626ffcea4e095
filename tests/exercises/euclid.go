// Greatest common divisors, inverses modulo a prime, and powers by squaring.
package main

func gcd(a, b int64) int64 {
	for b != 0 {
		a, b = b, a%b
	}
	return a
}

// extended returns g, x and y with a*x + b*y = g, the greatest common divisor.
func extended(a, b int64) (g, x, y int64) {
	if b == 0 {
		return a, 1, 0
	}
	g, x, y = extended(b, a%b)
	x, y = y, x-a/b*y
	return
}

func inverse(a, m int64) (int64, bool) {
	g, x, _ := extended(a, m)
	if g != 1 {
		return 0, false
	}
	return (x%m + m) % m, true
}

func power(base, exponent, m uint64) uint64 {
	result := uint64(1)
	for base %= m; exponent > 0; exponent >>= 1 {
		if exponent&1 == 1 {
			result = result * base % m
		}
		base = base * base % m
	}
	return result
}

func main() {
	println(gcd(1071, 462), gcd(17, 0), gcd(-48, 36))
	for _, a := range [...]int64{3, 10, 12, 17} {
		if i, ok := inverse(a, 26); ok {
			println(a, "has the inverse", i, "modulo 26:", a*i%26)
		} else {
			println(a, "has no inverse modulo 26")
		}
	}
	println(power(2, 62, 1000000007), power(3, 1000000006, 1000000007))
}
