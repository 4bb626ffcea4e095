// A machine with a stack: an assembler with labels, instructions as functions in a table, devices by interfaces, and traps by panics.
package main

import (
	"errors"
	"os"
	"runtime"
)

type word = int32

type opcode uint8

const (
	halt opcode = iota
	push
	pop
	dup
	swap
	add
	sub
	mul
	div
	load
	store
	jump
	jumpZero
	call
	ret
	read
	write
	count
)

var names = [count]string{"halt", "push", "pop", "dup", "swap", "add", "sub", "mul", "div", "load", "store", "jump", "jz", "call", "ret", "read", "write"}

var hasOperand = map[opcode]bool{push: true, load: true, store: true, jump: true, jumpZero: true, call: true, read: true, write: true}

type instruction struct {
	opcode
	operand word
}

type device interface {
	get() word
	put(word)
}

type reset interface{ reset() }

type tape struct {
	in  []word
	out []word
}

func (t *tape) get() word {
	if len(t.in) == 0 {
		return -1
	}
	w := t.in[0]
	t.in = t.in[1:]
	return w
}
func (t *tape) put(w word) { t.out = append(t.out, w) }
func (t *tape) reset()     { t.in, t.out = nil, t.out[:0] }

type counter struct{ n word }

func (c *counter) get() word  { c.n++; return c.n }
func (c *counter) put(w word) { c.n = w }

type trap struct {
	at   int
	text string
}

func (t trap) Error() string { return t.text }

type machine struct {
	code    []instruction
	stack   []word
	returns []int
	memory  [16]word
	devices []device
	at      int
	steps   int
}

func (m *machine) push(w word) {
	if len(m.stack) == 64 {
		panic(trap{m.at, "stack overflow"})
	}
	m.stack = append(m.stack, w)
}

func (m *machine) pop() word {
	if len(m.stack) == 0 {
		panic(trap{m.at, "stack underflow"})
	}
	last := len(m.stack) - 1
	w := m.stack[last]
	m.stack = m.stack[:last]
	return w
}

func operate(f func(a, b word) word) func(*machine, word) {
	return func(m *machine, _ word) {
		b, a := m.pop(), m.pop()
		m.push(f(a, b))
	}
}

var table [count]func(m *machine, operand word)

func init() {
	table = [...]func(m *machine, operand word){
		push:  (*machine).push,
		pop:   func(m *machine, _ word) { m.pop() },
		dup:   func(m *machine, _ word) { w := m.pop(); m.push(w); m.push(w) },
		swap:  func(m *machine, _ word) { b, a := m.pop(), m.pop(); m.push(b); m.push(a) },
		add:   operate(func(a, b word) word { return a + b }),
		sub:   operate(func(a, b word) word { return a - b }),
		mul:   operate(func(a, b word) word { return a * b }),
		div:   operate(func(a, b word) word { return a / b }),
		load:  func(m *machine, n word) { m.push(m.memory[n]) },
		store: func(m *machine, n word) { m.memory[n] = m.pop() },
		jump:  func(m *machine, n word) { m.at = int(n) },
		jumpZero: func(m *machine, n word) {
			if m.pop() == 0 {
				m.at = int(n)
			}
		},
		call: func(m *machine, n word) { m.returns = append(m.returns, m.at); m.at = int(n) },
		ret: func(m *machine, _ word) {
			last := len(m.returns) - 1
			m.at, m.returns = m.returns[last], m.returns[:last]
		},
		read:  func(m *machine, n word) { m.push(m.devices[n].get()) },
		write: func(m *machine, n word) { m.devices[n].put(m.pop()) },
	}
}

func (m *machine) run(limit int) (err error) {
	defer func() {
		switch r := recover().(type) {
		case nil:
		case trap:
			err = r
		case runtime.Error:
			err = errors.New("fault: " + r.Error())
		default:
			panic(r)
		}
	}()
	for m.steps = 0; m.steps < limit; m.steps++ {
		i := m.code[m.at]
		m.at++
		if i.opcode == halt {
			return nil
		}
		table[i.opcode](m, i.operand)
	}
	return errors.New("too many steps")
}

func fields(line string) (words []string) {
	start := -1
	for i := 0; i <= len(line); i++ {
		if i == len(line) || line[i] == ' ' || line[i] == '\t' {
			if start >= 0 {
				words = append(words, line[start:i])
			}
			start = -1
		} else if start < 0 {
			start = i
		}
	}
	return
}

func lines(text string) (all []string) {
	for start, i := 0, 0; i < len(text); i++ {
		if text[i] == '\n' {
			all = append(all, text[start:i])
			start = i + 1
		}
	}
	return
}

func number(text string) (n word, ok bool) {
	sign := word(1)
	for i, c := range []byte(text) {
		switch {
		case c == '-' && i == 0:
			sign = -1
		case '0' <= c && c <= '9':
			n, ok = n*10+word(c-'0'), true
		default:
			return 0, false
		}
	}
	return n * sign, ok
}

type fault struct {
	line int
	what string
}

func assemble(text string) (code []instruction, faults []fault) {
	labels := map[string]word{}
	byName := make(map[string]opcode, count)
	for o, name := range names {
		byName[name] = opcode(o)
	}
	type patch struct {
		at, line int
		label    string
	}
	var patches []patch
	for n, line := range lines(text) {
		words := fields(line)
		if len(words) > 0 && words[0][len(words[0])-1] == ':' {
			labels[words[0][:len(words[0])-1]] = word(len(code))
			words = words[1:]
		}
		if len(words) == 0 {
			continue
		}
		op, ok := byName[words[0]]
		if !ok {
			faults = append(faults, fault{n + 1, "no instruction " + words[0]})
			continue
		}
		i := instruction{opcode: op}
		if wanted := hasOperand[op]; wanted != (len(words) == 2) {
			faults = append(faults, fault{n + 1, "wrong operands of " + words[0]})
			continue
		} else if wanted {
			if value, ok := number(words[1]); ok {
				i.operand = value
			} else {
				patches = append(patches, patch{len(code), n + 1, words[1]})
			}
		}
		code = append(code, i)
	}
	for _, p := range patches {
		target, ok := labels[p.label]
		if !ok {
			faults = append(faults, fault{p.line, "no label " + p.label})
		}
		code[p.at].operand = target
	}
	return
}

const factorial = `
	read 0
	call fact
	write 0
	halt
fact:	dup
	jz one
	dup
	push 1
	sub
	call fact
	mul
	ret
one:	pop
	push 1
	ret
`

const squares = `
	push 5
	store 0
next:	read 1
	dup
	mul
	write 0
	load 0
	push 1
	sub
	dup
	store 0
	jz end
	jump next
end:	halt
`

func main() {
	programs := []struct {
		name, text string
		in         []word
	}{
		{"factorial", factorial, []word{10}},
		{"squares", squares, nil},
		{"underflow", "\tpush 1\n\tadd\n", nil},
		{"zero", "\tpush 1\n\tpush 0\n\tdiv\n\thalt\n", nil},
		{"outside", "\tload 99\n\thalt\n", nil},
		{"endless", "l:\tjump l\n", nil},
		{"faulty", "\tfly 1\n\tpush\n\tjump nowhere\n", nil},
		{"deep", "l:\tpush 7\n\tjump l\n", nil},
	}
	t := new(tape)
	bad := 0
	for _, p := range programs {
		code, faults := assemble(p.text)
		if faults != nil {
			for _, f := range faults {
				println(p.name, "line", f.line, f.what)
			}
			continue
		}
		for _, d := range []device{t, &counter{}} {
			if r, ok := d.(reset); ok {
				r.reset()
			}
		}
		t.in = p.in
		m := machine{code: code, devices: []device{t, new(counter)}}
		if err := m.run(1000); err != nil {
			bad++
			println(p.name, "stopped at", m.at, "after", m.steps, err.Error())
			continue
		}
		print(p.name, " ", m.steps, " steps:")
		for _, w := range t.out {
			print(" ", w)
		}
		println()
	}
	if bad > 0 {
		os.Exit(bad)
	}
}
