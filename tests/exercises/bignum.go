// Numbers of any length: sums, products, factorials and powers of two.
package main

const base = 10000

// number has its digits to the base 10000, the least first.
type number []uint16

func of(n uint) number {
	var digits number
	for ; n > 0; n /= base {
		digits = append(digits, uint16(n%base))
	}
	return digits
}

func (a number) plus(b number) number {
	if len(a) < len(b) {
		a, b = b, a
	}
	sum := make(number, 0, len(a)+1)
	carry := uint16(0)
	for i, digit := range a {
		digit += carry
		if i < len(b) {
			digit += b[i]
		}
		carry = digit / base
		sum = append(sum, digit%base)
	}
	if carry > 0 {
		sum = append(sum, carry)
	}
	return sum
}

func (a number) times(b number) number {
	wide := make([]uint32, len(a)+len(b))
	for i, x := range a {
		carry := uint32(0)
		for j, y := range b {
			value := wide[i+j] + uint32(x)*uint32(y) + carry
			wide[i+j], carry = value%base, value/base
		}
		wide[i+len(b)] += carry
	}
	product := make(number, len(wide))
	for i, digit := range wide {
		product[i] = uint16(digit)
	}
	for len(product) > 0 && product[len(product)-1] == 0 {
		product = product[:len(product)-1]
	}
	return product
}

func (a number) String() string {
	if len(a) == 0 {
		return "0"
	}
	var text []byte
	for i := len(a) - 1; i >= 0; i-- {
		for unit := uint16(base / 10); unit > 0; unit /= 10 {
			digit := byte(a[i]/unit%10) + '0'
			if len(text) > 0 || digit != '0' {
				text = append(text, digit)
			}
		}
	}
	return string(text)
}

func main() {
	factorial := of(1)
	for n := uint(2); n <= 40; n++ {
		factorial = factorial.times(of(n))
	}
	println("40! =", factorial.String())
	two := of(1)
	for i := 0; i < 200; i++ {
		two = two.plus(two)
	}
	println("2^200 =", two.String())
	a, b := of(0), of(1)
	for i := 0; i < 300; i++ {
		a, b = b, a.plus(b)
	}
	println("F(300) =", a.String(), len(a))
	println(of(0).String(), of(99999999).plus(of(1)).String(), of(0).times(of(7)).String())
}
