// An interpreter of a small Lisp: cells, symbols, closures, environments and a reader.
package main

import "errors"

type value interface{}

type symbol string

type pair struct {
	first, rest value
}

type empty struct{}

type builtin struct {
	name string
	call func(arguments []value) (value, error)
}

type closure struct {
	parameters []symbol
	body       value
	in         *environment
}

type environment struct {
	values map[symbol]value
	outer  *environment
}

func (e *environment) find(name symbol) (value, bool) {
	for at := e; at != nil; at = at.outer {
		if v, ok := at.values[name]; ok {
			return v, true
		}
	}
	return nil, false
}

func (e *environment) define(name symbol, v value) { e.values[name] = v }

func extend(outer *environment) *environment {
	return &environment{map[symbol]value{}, outer}
}

type reader struct {
	text string
	at   int
}

var errEnd = errors.New("unexpected end")

func (r *reader) skip() {
	for r.at < len(r.text) {
		switch c := r.text[r.at]; {
		case c == ' ' || c == '\n' || c == '\t':
			r.at++
		case c == ';':
			for r.at < len(r.text) && r.text[r.at] != '\n' {
				r.at++
			}
		default:
			return
		}
	}
}

func (r *reader) done() bool {
	r.skip()
	return r.at >= len(r.text)
}

func (r *reader) read() (value, error) {
	if r.done() {
		return nil, errEnd
	}
	switch r.text[r.at] {
	case '(':
		r.at++
		return r.list()
	case ')':
		return nil, errors.New("unexpected )")
	case '\'':
		r.at++
		quoted, err := r.read()
		if err != nil {
			return nil, err
		}
		return list(symbol("quote"), quoted), nil
	}
	return r.atom(), nil
}

func (r *reader) list() (value, error) {
	var items []value
	for {
		if r.done() {
			return nil, errEnd
		}
		if r.text[r.at] == ')' {
			r.at++
			return list(items...), nil
		}
		item, err := r.read()
		if err != nil {
			return nil, err
		}
		items = append(items, item)
	}
}

func (r *reader) atom() value {
	start := r.at
scan:
	for ; r.at < len(r.text); r.at++ {
		switch r.text[r.at] {
		case ' ', '\n', '\t', '(', ')', ';':
			break scan
		}
	}
	word := r.text[start:r.at]
	if n, ok := integer(word); ok {
		return n
	}
	switch word {
	case "#t":
		return true
	case "#f":
		return false
	}
	return symbol(word)
}

func integer(word string) (n int, ok bool) {
	negative := len(word) > 1 && word[0] == '-'
	if negative {
		word = word[1:]
	}
	if word == "" {
		return
	}
	for i := range word {
		if word[i] < '0' || word[i] > '9' {
			return 0, false
		}
		n = n*10 + int(word[i]-'0')
	}
	if negative {
		n = -n
	}
	return n, true
}

func list(items ...value) value {
	var result value = empty{}
	for i := len(items) - 1; i >= 0; i-- {
		result = &pair{items[i], result}
	}
	return result
}

func items(v value) (all []value, err error) {
	for {
		switch at := v.(type) {
		case empty:
			return all, nil
		case *pair:
			all = append(all, at.first)
			v = at.rest
		default:
			return nil, errors.New("not a list")
		}
	}
}

func decimal(n int) string {
	switch {
	case n < 0:
		return "-" + decimal(-n)
	case n < 10:
		return string(rune('0' + n))
	}
	return decimal(n/10) + decimal(n%10)
}

func show(v value) string {
	switch v := v.(type) {
	case int:
		return decimal(v)
	case bool:
		if v {
			return "#t"
		}
		return "#f"
	case symbol:
		return string(v)
	case empty:
		return "()"
	case *builtin:
		return "<" + v.name + ">"
	case *closure:
		return "<closure>"
	case *pair:
		text := "(" + show(v.first)
		var rest value = v.rest
		for {
			next, ok := rest.(*pair)
			if !ok {
				break
			}
			text += " " + show(next.first)
			rest = next.rest
		}
		if _, ok := rest.(empty); !ok {
			text += " . " + show(rest)
		}
		return text + ")"
	}
	return "?"
}

func isTrue(v value) bool {
	b, ok := v.(bool)
	return !ok || b
}

func eval(v value, in *environment) (value, error) {
	for {
		switch form := v.(type) {
		case symbol:
			if found, ok := in.find(form); ok {
				return found, nil
			}
			return nil, errors.New("unbound " + string(form))
		case *pair:
			parts, err := items(form)
			if err != nil {
				return nil, err
			}
			if word, ok := form.first.(symbol); ok {
				switch word {
				case "quote":
					return parts[1], nil
				case "if":
					test, err := eval(parts[1], in)
					if err != nil {
						return nil, err
					}
					if isTrue(test) {
						v = parts[2]
					} else {
						v = parts[3]
					}
					continue
				case "define":
					result, err := eval(parts[2], in)
					if err != nil {
						return nil, err
					}
					in.define(parts[1].(symbol), result)
					return parts[1], nil
				case "lambda":
					names, err := items(parts[1])
					if err != nil {
						return nil, err
					}
					c := &closure{body: parts[2], in: in}
					for _, n := range names {
						c.parameters = append(c.parameters, n.(symbol))
					}
					return c, nil
				}
			}
			evaluated := make([]value, 0, len(parts))
			for _, part := range parts {
				result, err := eval(part, in)
				if err != nil {
					return nil, err
				}
				evaluated = append(evaluated, result)
			}
			switch f := evaluated[0].(type) {
			case *builtin:
				return f.call(evaluated[1:])
			case *closure:
				if len(f.parameters) != len(evaluated)-1 {
					return nil, errors.New("wrong number of arguments")
				}
				inner := extend(f.in)
				for i, name := range f.parameters {
					inner.define(name, evaluated[i+1])
				}
				v, in = f.body, inner
				continue
			}
			return nil, errors.New("not a function: " + show(evaluated[0]))
		default:
			return v, nil
		}
	}
}

func arithmetic(name string, f func(a, b int) value) *builtin {
	return &builtin{name, func(arguments []value) (value, error) {
		if len(arguments) != 2 {
			return nil, errors.New(name + " takes two arguments")
		}
		a, first := arguments[0].(int)
		b, second := arguments[1].(int)
		if !first || !second {
			return nil, errors.New(name + " takes numbers")
		}
		return f(a, b), nil
	}}
}

func global() *environment {
	e := extend(nil)
	for _, b := range []*builtin{
		arithmetic("+", func(a, b int) value { return a + b }),
		arithmetic("-", func(a, b int) value { return a - b }),
		arithmetic("*", func(a, b int) value { return a * b }),
		arithmetic("<", func(a, b int) value { return a < b }),
		arithmetic("=", func(a, b int) value { return a == b }),
		{"cons", func(a []value) (value, error) { return &pair{a[0], a[1]}, nil }},
		{"car", func(a []value) (value, error) {
			if p, ok := a[0].(*pair); ok {
				return p.first, nil
			}
			return nil, errors.New("car of no pair")
		}},
		{"cdr", func(a []value) (value, error) {
			if p, ok := a[0].(*pair); ok {
				return p.rest, nil
			}
			return nil, errors.New("cdr of no pair")
		}},
		{"null", func(a []value) (value, error) { return a[0] == value(empty{}), nil }},
	} {
		e.define(symbol(b.name), b)
	}
	return e
}

const program = `
; functions of numbers
(define fact (lambda (n) (if (= n 0) 1 (* n (fact (- n 1))))))
(fact 10)
(define fib (lambda (n) (if (< n 2) n (+ (fib (- n 1)) (fib (- n 2))))))
(fib 15)
; a loop by a tail call
(define loop (lambda (n sum) (if (= n 0) sum (loop (- n 1) (+ sum n)))))
(loop 1000 0)
; lists
(define map (lambda (f l) (if (null l) l (cons (f (car l)) (map f (cdr l))))))
(map (lambda (x) (* x x)) '(1 2 3 4))
(cons 1 2)
'(a (b c) () d)
; closures
(define adder (lambda (n) (lambda (x) (+ x n))))
((adder 5) 10)
(map (adder -1) '(10 20))
car
(car 5)
(nothing 1)
(if #f 1 (quote no))
`

func main() {
	r := &reader{text: program}
	in := global()
	for !r.done() {
		form, err := r.read()
		if err != nil {
			println("read:", err.Error())
			return
		}
		result, err := eval(form, in)
		if err != nil {
			println("error:", err.Error())
			continue
		}
		println(show(result))
	}
}
