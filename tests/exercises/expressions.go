// Expressions as trees: values, printing, and derivatives, by methods and by type switches.
package main

type expr interface {
	eval(env map[string]int) int
}

type number int

type name string

type binary struct {
	op   byte
	l, r expr
}

type apply struct {
	function string
	args     []expr
}

func (n number) eval(map[string]int) int   { return int(n) }
func (n name) eval(env map[string]int) int { return env[string(n)] }

func (b binary) eval(env map[string]int) int {
	l, r := b.l.eval(env), b.r.eval(env)
	switch b.op {
	case '+':
		return l + r
	case '-':
		return l - r
	case '*':
		return l * r
	}
	panic("no such operator")
}

func (a *apply) eval(env map[string]int) int {
	value := a.args[0].eval(env)
	for _, arg := range a.args[1:] {
		other := arg.eval(env)
		if (a.function == "least") == (other < value) {
			value = other
		}
	}
	return value
}

func show(e expr) {
	switch e := e.(type) {
	case number:
		print(int(e))
	case name:
		print(string(e))
	case binary:
		print("(")
		show(e.l)
		print(" ", string(rune(e.op)), " ")
		show(e.r)
		print(")")
	case *apply:
		print(e.function, "(")
		for i, arg := range e.args {
			if i > 0 {
				print(", ")
			}
			show(arg)
		}
		print(")")
	}
}

func derived(e expr, by name) expr {
	switch e := e.(type) {
	case number:
		return number(0)
	case name:
		if e == by {
			return number(1)
		}
		return number(0)
	case binary:
		l, r := derived(e.l, by), derived(e.r, by)
		if e.op == '*' {
			return simple(binary{'+', simple(binary{'*', l, e.r}), simple(binary{'*', e.l, r})})
		}
		return simple(binary{e.op, l, r})
	default:
		panic(e)
	}
}

func simple(b binary) expr {
	zero, one := expr(number(0)), expr(number(1))
	switch {
	case b.op == '*' && (b.l == zero || b.r == zero):
		return zero
	case b.op == '*' && b.l == one, b.op == '+' && b.l == zero:
		return b.r
	case b.op == '*' && b.r == one, b.op != '*' && b.r == zero:
		return b.l
	}
	return b
}

func main() {
	x := name("x")
	e := binary{'+', binary{'*', binary{'*', x, x}, number(3)}, binary{'-', x, name("y")}}
	env := map[string]int{"x": 5, "y": 2}
	show(e)
	println(" =", e.eval(env))
	d := derived(e, x)
	show(d)
	println(" =", d.eval(env))
	least := &apply{"least", []expr{x, name("y"), number(9)}}
	show(least)
	println(" =", least.eval(env), (&apply{"most", least.args}).eval(env))
	defer func() {
		_, isApply := recover().(*apply)
		println("no derivative:", isApply)
	}()
	derived(least, x)
}
