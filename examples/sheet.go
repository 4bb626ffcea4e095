// A spreadsheet: cells with numbers, texts and formulas, which are computed in the order of what they stand on; cycles are found.
package main

import "errors"

type place struct{ column, row int }

func (p place) String() string { return string(rune('A'+p.column)) + decimal(p.row+1) }

func decimal(n int) (text string) {
	if n < 0 {
		return "-" + decimal(-n)
	}
	for {
		text = string(rune('0'+n%10)) + text
		if n /= 10; n == 0 {
			return
		}
	}
}

type content interface {
	value(s *sheet) (int, error)
	needs() []place
}

type blank struct{}
type constant int
type label string

type reference struct{ place }

type span struct{ from, to place }

type call struct {
	function string
	over     span
}

type operation struct {
	operator    byte
	left, right content
}

var (
	errCycle = errors.New("#CYCLE")
	errText  = errors.New("#TEXT")
	errZero  = errors.New("#DIV0")
)

func (blank) value(*sheet) (int, error)      { return 0, nil }
func (blank) needs() []place                 { return nil }
func (c constant) value(*sheet) (int, error) { return int(c), nil }
func (constant) needs() []place              { return nil }
func (l label) value(*sheet) (int, error)    { return len(l), errText }
func (label) needs() []place                 { return nil }

func (r reference) value(s *sheet) (int, error) { return s.result(r.place) }
func (r reference) needs() []place              { return []place{r.place} }

func (o operation) needs() []place { return append(o.left.needs(), o.right.needs()...) }

func (o operation) value(s *sheet) (int, error) {
	a, err := o.left.value(s)
	if err != nil {
		return 0, err
	}
	b, err := o.right.value(s)
	if err != nil {
		return 0, err
	}
	switch o.operator {
	case '+':
		return a + b, nil
	case '-':
		return a - b, nil
	case '*':
		return a * b, nil
	case '/':
		if b != 0 {
			return a / b, nil
		}
	}
	return 0, errZero
}

func (c call) needs() (all []place) {
	c.over.each(func(p place) { all = append(all, p) })
	return
}

func (s span) each(f func(place)) {
	for column := s.from.column; column <= s.to.column; column++ {
		for row := s.from.row; row <= s.to.row; row++ {
			f(place{column, row})
		}
	}
}

// functions by name: a start, and how a value is taken in
var functions = map[string]struct {
	start int
	fold  func(total, value int) int
}{
	"SUM":   {0, func(total, value int) int { return total + value }},
	"COUNT": {fold: func(total, _ int) int { return total + 1 }},
	"MAX": {-1 << 31, func(total, value int) int {
		if value > total {
			return value
		}
		return total
	}},
}

func (c call) value(s *sheet) (total int, err error) {
	f, known := functions[c.function]
	if !known {
		return 0, errors.New("#NAME")
	}
	total = f.start
	c.over.each(func(p place) {
		v, failed := s.result(p)
		switch {
		case failed == errText:
		case failed != nil:
			err = failed
		default:
			if _, isBlank := s.cells[p].(blank); !isBlank && s.cells[p] != nil {
				total = f.fold(total, v)
			}
		}
	})
	return total, err
}

type state uint8

const (
	fresh state = iota
	active
	known
)

type result struct {
	state
	value int
	err   error
}

type sheet struct {
	cells   map[place]content
	results map[place]*result
	order   []place
	width   int
	height  int
}

func newSheet(width, height int) *sheet {
	return &sheet{cells: make(map[place]content), results: make(map[place]*result), width: width, height: height}
}

func (s *sheet) result(p place) (int, error) {
	r, ok := s.results[p]
	if !ok {
		r = new(result)
		s.results[p] = r
	}
	switch r.state {
	case known:
		return r.value, r.err
	case active:
		return 0, errCycle
	}
	r.state = active
	if c := s.cells[p]; c != nil {
		r.value, r.err = c.value(s)
		s.order = append(s.order, p)
	}
	r.state = known
	return r.value, r.err
}

type cursor struct {
	text string
	at   int
}

func (c *cursor) peek() byte {
	if c.at < len(c.text) {
		return c.text[c.at]
	}
	return 0
}

func (c *cursor) accept(b byte) bool {
	if c.peek() != b {
		return false
	}
	c.at++
	return true
}

func (c *cursor) number() (n int) {
	for c.peek() >= '0' && c.peek() <= '9' {
		n = n*10 + int(c.peek()-'0')
		c.at++
	}
	return
}

func (c *cursor) word() string {
	start := c.at
	for c.peek() >= 'A' && c.peek() <= 'Z' {
		c.at++
	}
	return c.text[start:c.at]
}

func (c *cursor) place(word string) place {
	return place{column: int(word[0] - 'A'), row: c.number() - 1}
}

func (c *cursor) factor() content {
	if c.accept('(') {
		inner := c.sum()
		c.accept(')')
		return inner
	}
	if c.accept('-') {
		return operation{'-', constant(0), c.factor()}
	}
	if word := c.word(); len(word) > 1 {
		c.accept('(')
		from := c.place(c.word())
		c.accept(':')
		to := c.place(c.word())
		c.accept(')')
		return call{word, span{from, to}}
	} else if len(word) == 1 {
		return reference{c.place(word)}
	}
	return constant(c.number())
}

func (c *cursor) chain(operators string, next func() content) content {
	left := next()
again:
	for {
		for i := 0; i < len(operators); i++ {
			if c.accept(operators[i]) {
				left = operation{operators[i], left, next()}
				continue again
			}
		}
		return left
	}
}

func (c *cursor) product() content { return c.chain("*/", c.factor) }
func (c *cursor) sum() content     { return c.chain("+-", c.product) }

func parse(text string) content {
	c := &cursor{text: text}
	switch {
	case text == "":
		return blank{}
	case c.accept('='):
		return c.sum()
	case text[0] >= '0' && text[0] <= '9':
		return constant(c.number())
	}
	return label(text)
}

func pad(text string, width int) string {
	for len(text) < width {
		text = " " + text
	}
	return text
}

func (s *sheet) show(p place) string {
	c, ok := s.cells[p]
	if !ok {
		return ""
	}
	switch c := c.(type) {
	case blank:
		return ""
	case label:
		return string(c)
	}
	v, err := s.result(p)
	if err != nil {
		return err.Error()
	}
	return decimal(v)
}

func main() {
	rows := [][]string{
		{"item", "price", "count", "total"},
		{"apple", "3", "10", "=B2*C2"},
		{"pear", "4", "=C2/2+1", "=B3*C3"},
		{"plum", "", "7", "=B4*C4-(1-3)"},
		{"all", "=MAX(B2:B4)", "=SUM(C2:C4)", "=SUM(D2:D4)"},
		{"odd", "=B7", "=COUNT(A1:D5)", "=1/(C2-10)"},
		{"", "=B6+1", "=A2+1", "=FOO(A1:A2)"},
	}
	s := newSheet(len(rows[0]), len(rows))
	for r, row := range rows {
		for c, text := range row {
			s.cells[place{c, r}] = parse(text)
		}
	}
	for r := 0; r < s.height; r++ {
		line := decimal(r + 1)
		for c := 0; c < s.width; c++ {
			line += pad(s.show(place{c, r}), 8)
		}
		println(line)
	}
	formulas := 0
	for _, p := range s.order {
		if needs := s.cells[p].needs(); len(needs) > 0 {
			formulas++
			println(p.String(), "stands on", len(needs), "from", needs[0].String())
		}
	}
	println(formulas, "formulas")
}
