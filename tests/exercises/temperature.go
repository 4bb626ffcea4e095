// A table of temperatures in whole degrees, with columns that are set to the right.
package main

func text(n int) string {
	if n < 0 {
		return "-" + text(-n)
	}
	if n < 10 {
		return string(rune('0' + n))
	}
	return text(n/10) + text(n%10)
}

func right(s string, width int) string {
	for len(s) < width {
		s = " " + s
	}
	return s
}

type scale int

const (
	celsius scale = iota
	fahrenheit
	kelvin
)

func (s scale) String() string { return [...]string{"C", "F", "K"}[s] }

// tenths converts tenths of a degree.
func tenths(value int, from, to scale) int {
	switch from {
	case fahrenheit:
		value = (value - 320) * 5 / 9
	case kelvin:
		value -= 2731
	}
	switch to {
	case fahrenheit:
		value = value*9/5 + 320
	case kelvin:
		value += 2731
	}
	return value
}

func main() {
	for _, s := range [...]scale{celsius, fahrenheit, kelvin} {
		print(right(s.String(), 6))
	}
	println()
	for c := -40; c <= 100; c += 20 {
		for s := celsius; s <= kelvin; s++ {
			print(right(text(tenths(c*10, celsius, s)/10), 6))
		}
		println()
	}
	println(tenths(tenths(725, fahrenheit, kelvin), kelvin, celsius))
}
