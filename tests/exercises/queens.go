// The eight queens: how many ways there are, and the first of them.
package main

type board struct {
	size            int
	columns         []bool
	rising, falling map[int]bool
	rows            []int
}

func newBoard(size int) *board {
	return &board{size: size, columns: make([]bool, size), rising: map[int]bool{}, falling: map[int]bool{}}
}

func (b *board) isFree(row, column int) bool {
	return !b.columns[column] && !b.rising[row+column] && !b.falling[row-column]
}

func (b *board) set(row, column int, on bool) {
	b.columns[column] = on
	if on {
		b.rising[row+column], b.falling[row-column] = true, true
		b.rows = append(b.rows, column)
		return
	}
	delete(b.rising, row+column)
	delete(b.falling, row-column)
	b.rows = b.rows[:len(b.rows)-1]
}

func (b *board) place(row int, found func([]int)) {
	if row == b.size {
		found(b.rows)
		return
	}
	for column := 0; column < b.size; column++ {
		if b.isFree(row, column) {
			b.set(row, column, true)
			b.place(row+1, found)
			b.set(row, column, false)
		}
	}
}

func main() {
	for size := 1; size <= 7; size++ {
		count := 0
		newBoard(size).place(0, func([]int) { count++ })
		println(size, count)
	}
	count := 0
	newBoard(8).place(0, func(rows []int) {
		count++
		if count > 1 {
			return
		}
		for _, column := range rows {
			line := []byte("........")
			line[column] = 'Q'
			println(string(line))
		}
	})
	println("eight queens:", count)
}
