// A solver of number puzzles: candidates as bit sets, constraint propagation and search, with a count of the steps.
package main

const (
	size  = 9
	box   = 3
	cells = size * size
	full  = 1<<size - 1
)

type set uint16

func only(digit int) set        { return 1 << uint(digit-1) }
func (s set) has(digit int) bool { return s&only(digit) != 0 }

func (s set) count() (n int) {
	for ; s != 0; s &= s - 1 {
		n++
	}
	return
}

func (s set) single() (digit int, ok bool) {
	if s == 0 || s&(s-1) != 0 {
		return 0, false
	}
	for digit = 1; !s.has(digit); digit++ {
	}
	return digit, true
}

type grid [cells]set

type statistics struct {
	guesses, removed, dead int
}

type solver struct {
	peers [cells][]int
	units [][size]int
	of    [cells][]int
	statistics
	trace func(depth int, text string, at int)
}

func newSolver() *solver {
	s := new(solver)
	for i := 0; i < size; i++ {
		var row, column, square [size]int
		for j := range row {
			row[j] = i*size + j
			column[j] = j*size + i
			square[j] = (i/box*box+j/box)*size + i%box*box + j%box
		}
		s.units = append(s.units, row, column, square)
	}
	for u, unit := range s.units {
		for _, c := range unit {
			s.of[c] = append(s.of[c], u)
		}
	}
	for c := 0; c < cells; c++ {
		seen := map[int]bool{c: true}
		for _, u := range s.of[c] {
			for _, other := range s.units[u] {
				if !seen[other] {
					seen[other] = true
					s.peers[c] = append(s.peers[c], other)
				}
			}
		}
	}
	s.trace = func(int, string, int) {}
	return s
}

// remove takes a digit from a cell, and what follows from that; false where nothing is left.
func (s *solver) remove(g *grid, cell, digit int) bool {
	if !g[cell].has(digit) {
		return true
	}
	g[cell] &^= only(digit)
	s.removed++
	if g[cell] == 0 {
		return false
	}
	if last, ok := g[cell].single(); ok {
		for _, peer := range s.peers[cell] {
			if !s.remove(g, peer, last) {
				return false
			}
		}
	}
	for _, u := range s.of[cell] {
		place, found := -1, 0
		for _, c := range s.units[u] {
			if g[c].has(digit) {
				place = c
				found++
			}
		}
		switch found {
		case 0:
			return false
		case 1:
			if !s.assign(g, place, digit) {
				return false
			}
		}
	}
	return true
}

func (s *solver) assign(g *grid, cell, digit int) bool {
	for other := 1; other <= size; other++ {
		if other != digit && !s.remove(g, cell, other) {
			return false
		}
	}
	return true
}

func (s *solver) read(text string) (g grid, ok bool) {
	for c := range g {
		g[c] = full
	}
	at := 0
	for _, r := range text {
		switch {
		case r >= '1' && r <= '9':
			if at >= cells || !s.assign(&g, at, int(r-'0')) {
				return g, false
			}
			fallthrough
		case r == '.' || r == '0':
			at++
		}
	}
	return g, at == cells
}

func (s *solver) search(g grid, depth int) (grid, bool) {
	best, least := -1, size+1
	for c, candidates := range g {
		if n := candidates.count(); n > 1 && n < least {
			best, least = c, n
		}
	}
	if best < 0 {
		return g, true
	}
	for digit := 1; digit <= size; digit++ {
		if !g[best].has(digit) {
			continue
		}
		s.guesses++
		s.trace(depth, "guess", best)
		next := g
		if s.assign(&next, best, digit) {
			if solved, ok := s.search(next, depth+1); ok {
				return solved, true
			}
		}
		s.dead++
	}
	return grid{}, false
}

func show(g *grid) {
	for row := 0; row < size; row++ {
		line := make([]byte, 0, 2*size+4)
		for column := 0; column < size; column++ {
			if column%box == 0 && column > 0 {
				line = append(line, "| "...)
			}
			c := byte('.')
			if digit, ok := g[row*size+column].single(); ok {
				c += byte(digit) + '0' - '.'
			}
			line = append(line, c, ' ')
		}
		if row%box == 0 && row > 0 {
			println("------+-------+------")
		}
		println(string(line[:len(line)-1]))
	}
}

type puzzle struct{ name, text string }

var puzzles = []puzzle{
	{"easy", `
		53..7....
		6..195...
		.98....6.
		8...6...3
		4..8.3..1
		7...2...6
		.6....28.
		...419..5
		....8..79`},
	{"hard", "8..........36......7..9.2...5...7.......457.....1...3...1....68..85...1..9....4.."},
	{name: "none", text: "55..............................................................................."},
}

func main() {
	for i, p := range puzzles {
		s := newSolver()
		deepest := 0
		s.trace = func(depth int, _ string, _ int) {
			if depth > deepest {
				deepest = depth
			}
		}
		g, ok := s.read(p.text)
		if ok {
			g, ok = s.search(g, 1)
		}
		println(i+1, p.name, ok)
		if !ok {
			continue
		}
		show(&g)
		println("guesses", s.guesses, "dead", s.dead, "removed", s.removed, "deepest", deepest)
	}
}
