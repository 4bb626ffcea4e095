// Long integers: sign and limbs, school arithmetic and Karatsuba, division, powers, square roots, and fractions over them.
package main

const (
	base  = 10000
	width = 4
	small = 8 // limbs up to which products are made limb by limb
)

type limb uint32

// natural has the least limb first, and no 0 as its greatest.
type natural []limb

func (n natural) trim() natural {
	for len(n) > 0 && n[len(n)-1] == 0 {
		n = n[:len(n)-1]
	}
	return n
}

func from(v uint64) (n natural) {
	for ; v > 0; v /= base {
		n = append(n, limb(v%base))
	}
	return
}

func (n natural) at(i int) limb {
	if i < len(n) {
		return n[i]
	}
	return 0
}

func (n natural) compare(m natural) int {
	if d := len(n) - len(m); d != 0 {
		return d
	}
	for i := len(n) - 1; i >= 0; i-- {
		if n[i] != m[i] {
			return int(n[i]) - int(m[i])
		}
	}
	return 0
}

func (n natural) plus(m natural) natural {
	length := len(n)
	if len(m) > length {
		length = len(m)
	}
	sum := make(natural, 0, length+1)
	var carry limb
	for i := 0; i < length || carry > 0; i++ {
		t := n.at(i) + m.at(i) + carry
		sum = append(sum, t%base)
		carry = t / base
	}
	return sum
}

// minus is of a number that is no less.
func (n natural) minus(m natural) natural {
	rest := make(natural, len(n))
	borrow := limb(0)
	for i := range n {
		t := n[i] + base - m.at(i) - borrow
		rest[i], borrow = t%base, 1-t/base
	}
	return rest.trim()
}

func (n natural) shift(limbs int) natural {
	if len(n) == 0 {
		return nil
	}
	return append(make(natural, limbs), n...)
}

func (n natural) school(m natural) natural {
	product := make(natural, len(n)+len(m))
	for i, a := range n {
		carry := limb(0)
		for j, b := range m {
			t := product[i+j] + a*b + carry
			product[i+j], carry = t%base, t/base
		}
		product[i+len(m)] += carry
	}
	return product.trim()
}

func (n natural) split(at int) (low, high natural) {
	if len(n) <= at {
		return n, nil
	}
	return n[:at:at].trim(), n[at:]
}

func (n natural) times(m natural) natural {
	if len(n) <= small || len(m) <= small {
		return n.school(m)
	}
	half := (len(n) + 1) / 2
	if len(m) > len(n) {
		half = (len(m) + 1) / 2
	}
	a, b := n.split(half)
	c, d := m.split(half)
	low, high := a.times(c), b.times(d)
	middle := a.plus(b).times(c.plus(d)).minus(low).minus(high)
	return low.plus(middle.shift(half)).plus(high.shift(2 * half))
}

func (n natural) scaled(by limb) natural { return n.school(natural{by}.trim()) }

// divide by long division, each limb of the quotient found by halving.
func (n natural) divide(m natural) (quotient, rest natural) {
	if len(m) == 0 {
		panic("division by zero")
	}
	quotient = make(natural, len(n))
	for i := len(n) - 1; i >= 0; i-- {
		rest = append(natural{n[i]}, rest...).trim()
		low, high := limb(0), limb(base-1)
		for low < high {
			middle := (low + high + 1) / 2
			if m.scaled(middle).compare(rest) <= 0 {
				low = middle
			} else {
				high = middle - 1
			}
		}
		quotient[i] = low
		rest = rest.minus(m.scaled(low))
	}
	return quotient.trim(), rest
}

func (n natural) power(e uint) natural {
	result := natural{1}
	for ; e != 0; e >>= 1 {
		if e&1 != 0 {
			result = result.times(n)
		}
		n = n.times(n)
	}
	return result
}

func (n natural) root() natural {
	guess := n.plus(natural{1})
	for {
		quotient, _ := n.divide(guess)
		next, _ := guess.plus(quotient).divide(natural{2})
		if next.compare(guess) >= 0 {
			return guess
		}
		guess = next
	}
}

func (n natural) String() string {
	if len(n) == 0 {
		return "0"
	}
	digits := make([]byte, 0, width*len(n))
	for i := len(n) - 1; i >= 0; i-- {
		for d := limb(base / 10); d > 0; d /= 10 {
			if c := '0' + byte(n[i]/d%10); c != '0' || len(digits) > 0 {
				digits = append(digits, c)
			}
		}
	}
	return string(digits)
}

type integer struct {
	negative bool
	natural
}

func whole(v int) integer {
	if v < 0 {
		return integer{true, from(uint64(-v))}
	}
	return integer{natural: from(uint64(v))}
}

func (a integer) minus() integer { return integer{!a.negative && len(a.natural) > 0, a.natural} }

func (a integer) plus(b integer) integer {
	if a.negative == b.negative {
		return integer{a.negative, a.natural.plus(b.natural)}
	}
	switch c := a.compare(b.natural); {
	case c == 0:
		return integer{}
	case c > 0:
		return integer{a.negative, a.natural.minus(b.natural)}
	}
	return integer{b.negative, b.natural.minus(a.natural)}
}

func (a integer) times(b integer) integer {
	product := a.natural.times(b.natural)
	return integer{a.negative != b.negative && len(product) > 0, product}
}

func (a integer) String() string {
	if a.negative {
		return "-" + a.natural.String()
	}
	return a.natural.String()
}

func gcd(a, b natural) natural {
	for len(b) > 0 {
		_, rest := a.divide(b)
		a, b = b, rest
	}
	return a
}

type fraction struct {
	over  integer
	under natural
}

func reduced(over integer, under natural) fraction {
	d := gcd(over.natural, under)
	over.natural, _ = over.natural.divide(d)
	under, _ = under.divide(d)
	return fraction{over, under}
}

func (f fraction) plus(g fraction) fraction {
	up := func(n natural) integer { return integer{natural: n} }
	return reduced(f.over.times(up(g.under)).plus(g.over.times(up(f.under))), f.under.times(g.under))
}

func (f fraction) String() string { return f.over.String() + "/" + f.under.String() }

type stringer interface{ String() string }

func say(what string, values ...stringer) {
	print(what)
	for _, v := range values {
		print(" ", v.String())
	}
	println()
}

func main() {
	factorial := natural{1}
	for i := uint64(2); i <= 40; i++ {
		factorial = factorial.times(from(i))
	}
	say("40!", factorial)
	power := from(2).power(200)
	say("2^200", power)
	quotient, rest := power.divide(factorial)
	say("divided", quotient, rest)
	if again := quotient.times(factorial).plus(rest); again.compare(power) != 0 {
		say("wrong", again)
	}
	a, b := from(3).power(301), from(7).power(199)
	fast, slow := a.times(b), a.school(b)
	println("same product", fast.compare(slow) == 0, len(fast.String()))
	say("root of 2", from(2).times(from(10).power(40)).root())

	one, other := whole(-12345678), whole(87654321)
	say("sum", one.plus(other), other.plus(one.minus()), one.plus(one.minus()))
	say("product", one.times(other), one.times(one), one.times(integer{}))
	harmonic := reduced(whole(0), natural{1})
	for i := uint64(1); i <= 20; i++ {
		harmonic = harmonic.plus(fraction{whole(1), from(i)})
	}
	say("harmonic", harmonic)
	defer func() {
		println("recovered", recover().(string))
	}()
	from(1).divide(nil)
}
