// Roman numerals, both ways.
package main

var numerals = []struct {
	text  string
	value int
}{
	{"M", 1000}, {"CM", 900}, {"D", 500}, {"CD", 400}, {"C", 100}, {"XC", 90},
	{"L", 50}, {"XL", 40}, {"X", 10}, {"IX", 9}, {"V", 5}, {"IV", 4}, {"I", 1},
}

func toRoman(n int) string {
	text := ""
	for _, numeral := range numerals {
		for n >= numeral.value {
			text += numeral.text
			n -= numeral.value
		}
	}
	return text
}

func fromRoman(text string) (n int, ok bool) {
	rest := text
	for _, numeral := range numerals {
		for len(rest) >= len(numeral.text) && rest[:len(numeral.text)] == numeral.text {
			n += numeral.value
			rest = rest[len(numeral.text):]
		}
	}
	return n, rest == "" && toRoman(n) == text
}

func main() {
	for _, n := range []int{1, 4, 9, 14, 40, 90, 400, 1994, 2026, 3999} {
		println(n, toRoman(n))
	}
	for _, text := range [...]string{"MCMXCIV", "IIII", "VX", "XLII", "ABC", ""} {
		n, ok := fromRoman(text)
		println(text, n, ok)
	}
	for n := 1; n < 4000; n++ {
		if m, ok := fromRoman(toRoman(n)); !ok || m != n {
			println("wrong at", n)
		}
	}
}
