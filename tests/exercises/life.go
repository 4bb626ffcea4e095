// The game of life on a board whose edges meet.
package main

const (
	width  = 12
	height = 8
)

type world [height][width]bool

func parse(lines ...string) (w world) {
	for y, line := range lines {
		for x := range line {
			w[y][x] = line[x] == '#'
		}
	}
	return w
}

func (w *world) neighbours(x, y int) (count int) {
	for dy := -1; dy <= 1; dy++ {
		for dx := -1; dx <= 1; dx++ {
			if (dx != 0 || dy != 0) && w[(y+dy+height)%height][(x+dx+width)%width] {
				count++
			}
		}
	}
	return
}

func (w world) next() world {
	old := w
	for y := range w {
		for x := range w[y] {
			n := old.neighbours(x, y)
			w[y][x] = n == 3 || n == 2 && old[y][x]
		}
	}
	return w
}

func (w world) print() {
	for _, row := range w {
		line := make([]byte, 0, width)
		for _, alive := range row {
			if alive {
				line = append(line, '#')
			} else {
				line = append(line, '.')
			}
		}
		println(string(line))
	}
	println()
}

func main() {
	glider := parse(".#", "..#", "###")
	w := glider
	seen := map[world]int{w: 0}
	for turn := 1; ; turn++ {
		w = w.next()
		if turn == 4 {
			w.print()
		}
		if at, ok := seen[w]; ok {
			println("turn", turn, "is as turn", at)
			break
		}
		seen[w] = turn
	}
	println("worlds", len(seen), w == glider)
}
