// A calculator for postfix notation, whose faults are errors of their own types.
package main

import "errors"

type unknownWord struct {
	word string
	at   int
}

func (u unknownWord) Error() string { return "unknown word " + u.word }

type tooFew struct{ operator byte }

func (t *tooFew) Error() string { return "too few values for " + string(rune(t.operator)) }

var errLeft = errors.New("values are left")

type stack []int

func (s *stack) push(v int) { *s = append(*s, v) }

func (s *stack) pop() int {
	old := *s
	v := old[len(old)-1]
	*s = old[:len(old)-1]
	return v
}

func number(word string) (n int, ok bool) {
	for i := 0; i < len(word); i++ {
		if word[i] < '0' || word[i] > '9' {
			return 0, false
		}
		n = n*10 + int(word[i]-'0')
	}
	return n, len(word) > 0
}

var operators = map[byte]func(a, b int) int{
	'+': func(a, b int) int { return a + b },
	'-': func(a, b int) int { return a - b },
	'*': func(a, b int) int { return a * b },
	'/': func(a, b int) int { return a / b },
}

func evaluate(text string) (result int, err error) {
	defer func() {
		if r := recover(); r != nil {
			err = r.(error)
		}
	}()
	var s stack
	for start, i := 0, 0; i <= len(text); i++ {
		if i < len(text) && text[i] != ' ' {
			continue
		}
		word := text[start:i]
		at := start
		start = i + 1
		if word == "" {
			continue
		}
		if n, ok := number(word); ok {
			s.push(n)
			continue
		}
		apply, ok := operators[word[0]]
		if !ok || len(word) > 1 {
			return 0, unknownWord{word, at}
		}
		if len(s) < 2 {
			return 0, &tooFew{word[0]}
		}
		b, a := s.pop(), s.pop()
		s.push(apply(a, b))
	}
	result = s.pop()
	if len(s) > 0 {
		return result, errLeft
	}
	return result, nil
}

func main() {
	for _, text := range []string{"3 4 + 2 *", "10 2 8 * + 3 -", "1 +", "2 x", "1 2 3", "7 0 /"} {
		result, err := evaluate(text)
		switch e := err.(type) {
		case nil:
			println(text, "=", result)
		case unknownWord:
			println(text, "fails at", e.at, e.Error())
		case *tooFew:
			println(text, "fails at an operator:", e.Error())
		default:
			println(text, "fails:", e.Error(), err == errLeft)
		}
	}
}
