// A calculator: lines of arithmetic are cut into tokens, parsed by precedence and evaluated with variables.
package main

import "errors"

type kind int

const (
	number kind = iota
	name
	operator
	open
	closed
	end
)

func (k kind) String() string {
	switch k {
	case number:
		return "number"
	case name:
		return "name"
	case operator:
		return "operator"
	case open:
		return "("
	case closed:
		return ")"
	}
	return "end"
}

type token struct {
	kind  kind
	text  string
	value int64
	at    int
}

type scanner struct {
	text string
	at   int
}

func isDigit(c byte) bool  { return '0' <= c && c <= '9' }
func isLetter(c byte) bool { return 'a' <= c && c <= 'z' || 'A' <= c && c <= 'Z' || c == '_' }

type syntaxError struct {
	at   int
	text string
}

func (e *syntaxError) Error() string { return e.text + " at " + decimal(int64(e.at)) }

var errZero = errors.New("division by zero")

func decimal(n int64) string {
	if n == 0 {
		return "0"
	}
	negative := n < 0
	var digits []byte
	for n != 0 {
		d := n % 10
		if d < 0 {
			d = -d
		}
		digits = append(digits, byte('0'+d))
		n /= 10
	}
	if negative {
		digits = append(digits, '-')
	}
	for i, j := 0, len(digits)-1; i < j; i, j = i+1, j-1 {
		digits[i], digits[j] = digits[j], digits[i]
	}
	return string(digits)
}

func (s *scanner) next() (token, error) {
	for s.at < len(s.text) && (s.text[s.at] == ' ' || s.text[s.at] == '\t') {
		s.at++
	}
	start := s.at
	if start == len(s.text) {
		return token{kind: end, at: start}, nil
	}
	c := s.text[start]
	switch {
	case isDigit(c):
		var value int64
		for s.at < len(s.text) && isDigit(s.text[s.at]) {
			value = value*10 + int64(s.text[s.at]-'0')
			s.at++
		}
		return token{number, s.text[start:s.at], value, start}, nil
	case isLetter(c):
		for s.at < len(s.text) && (isLetter(s.text[s.at]) || isDigit(s.text[s.at])) {
			s.at++
		}
		return token{kind: name, text: s.text[start:s.at], at: start}, nil
	}
	s.at++
	switch c {
	case '(':
		return token{kind: open, text: "(", at: start}, nil
	case ')':
		return token{kind: closed, text: ")", at: start}, nil
	case '+', '-', '*', '/', '%', '^', '=':
		return token{kind: operator, text: s.text[start:s.at], at: start}, nil
	}
	return token{}, &syntaxError{start, "unexpected character " + string(rune(c))}
}

func scan(text string) (tokens []token, err error) {
	s := &scanner{text: text}
	for {
		var t token
		if t, err = s.next(); err != nil {
			return nil, err
		}
		tokens = append(tokens, t)
		if t.kind == end {
			return tokens, nil
		}
	}
}

type expression interface {
	eval(in *memory) (int64, error)
	show() string
}

type (
	literal  struct{ value int64 }
	variable struct{ name string }
	negated  struct{ operand expression }
	binary   struct {
		op          string
		left, right expression
	}
	assignment struct {
		name  string
		value expression
	}
)

type memory struct {
	values map[string]int64
	order  []string
}

func (m *memory) set(name string, value int64) {
	if _, known := m.values[name]; !known {
		m.order = append(m.order, name)
	}
	m.values[name] = value
}

func (e literal) eval(*memory) (int64, error) { return e.value, nil }
func (e literal) show() string                { return decimal(e.value) }

func (e variable) eval(in *memory) (int64, error) {
	if value, ok := in.values[e.name]; ok {
		return value, nil
	}
	return 0, errors.New("undefined name " + e.name)
}
func (e variable) show() string { return e.name }

func (e negated) eval(in *memory) (int64, error) {
	value, err := e.operand.eval(in)
	return -value, err
}
func (e negated) show() string { return "-" + e.operand.show() }

func power(base, exponent int64) int64 {
	result := int64(1)
	for ; exponent > 0; exponent >>= 1 {
		if exponent&1 == 1 {
			result *= base
		}
		base *= base
	}
	return result
}

func (e binary) eval(in *memory) (int64, error) {
	left, err := e.left.eval(in)
	if err != nil {
		return 0, err
	}
	right, err := e.right.eval(in)
	if err != nil {
		return 0, err
	}
	switch e.op {
	case "+":
		return left + right, nil
	case "-":
		return left - right, nil
	case "*":
		return left * right, nil
	case "^":
		return power(left, right), nil
	case "/", "%":
		if right == 0 {
			return 0, errZero
		}
		if e.op == "/" {
			return left / right, nil
		}
		return left % right, nil
	}
	panic("unknown operator " + e.op)
}
func (e binary) show() string { return "(" + e.left.show() + " " + e.op + " " + e.right.show() + ")" }

func (e assignment) eval(in *memory) (int64, error) {
	value, err := e.value.eval(in)
	if err == nil {
		in.set(e.name, value)
	}
	return value, err
}
func (e assignment) show() string { return e.name + " = " + e.value.show() }

type parser struct {
	tokens []token
	at     int
}

var precedence = map[string]int{"=": 1, "+": 2, "-": 2, "*": 3, "/": 3, "%": 3, "^": 4}

func (p *parser) peek() token { return p.tokens[p.at] }

func (p *parser) take() token {
	t := p.tokens[p.at]
	p.at++
	return t
}

func (p *parser) fail(t token) error {
	return &syntaxError{at: t.at, text: "unexpected " + t.kind.String()}
}

func (p *parser) expression(above int) (expression, error) {
	left, err := p.operand()
	if err != nil {
		return nil, err
	}
	for {
		t := p.peek()
		level := precedence[t.text]
		if t.kind != operator || level <= above {
			return left, nil
		}
		p.take()
		next := level
		if t.text == "^" || t.text == "=" {
			next--
		}
		right, err := p.expression(next)
		if err != nil {
			return nil, err
		}
		if t.text != "=" {
			left = binary{t.text, left, right}
			continue
		}
		target, ok := left.(variable)
		if !ok {
			return nil, &syntaxError{t.at, "cannot assign"}
		}
		left = assignment{target.name, right}
	}
}

func (p *parser) operand() (expression, error) {
	switch t := p.take(); {
	case t.kind == number:
		return literal{t.value}, nil
	case t.kind == name:
		return variable{t.text}, nil
	case t.kind == operator && t.text == "-":
		operand, err := p.expression(3)
		return negated{operand}, err
	case t.kind == open:
		inner, err := p.expression(0)
		if err != nil {
			return nil, err
		}
		if t := p.take(); t.kind != closed {
			return nil, p.fail(t)
		}
		return inner, nil
	default:
		return nil, p.fail(t)
	}
}

func parse(text string) (expression, error) {
	tokens, err := scan(text)
	if err != nil {
		return nil, err
	}
	p := &parser{tokens: tokens}
	e, err := p.expression(0)
	if err != nil {
		return nil, err
	}
	if t := p.peek(); t.kind != end {
		return nil, p.fail(t)
	}
	return e, nil
}

func main() {
	lines := [...]string{
		"1 + 2 * 3",
		"(1 + 2) * 3",
		"2 ^ 3 ^ 2",
		"-2 ^ 2",
		"x = y = 7",
		"x * y - 100 % 30",
		"7 / (x - y)",
		"z + 1",
		"3 $ 4",
		"(1 + 2",
		"1 2",
		"5 = x",
		"10 - 4 - 3",
	}
	m := &memory{values: map[string]int64{}}
	failures := 0
	for i, line := range lines {
		e, err := parse(line)
		var value int64
		if err == nil {
			value, err = e.eval(m)
		}
		switch err := err.(type) {
		case nil:
			println(i, e.show(), "is", value)
		case *syntaxError:
			failures++
			println(i, "syntax:", err.Error())
		default:
			failures++
			if err == errZero {
				println(i, "arithmetic:", err.Error())
			} else {
				println(i, err.Error())
			}
		}
	}
	for _, name := range m.order {
		println(name, m.values[name])
	}
	println(failures, "failures")
}
