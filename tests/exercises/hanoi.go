// The towers of Hanoi: the moves are made on stacks that check the rule.
package main

type tower struct {
	name  string
	disks []int
}

func (t *tower) push(disk int) {
	if n := len(t.disks); n > 0 && t.disks[n-1] < disk {
		panic("a larger disk on a smaller one")
	}
	t.disks = append(t.disks, disk)
}

func (t *tower) pop() int {
	last := len(t.disks) - 1
	disk := t.disks[last]
	t.disks = t.disks[:last]
	return disk
}

type game struct {
	moves int
	log   bool
}

func (g *game) move(count int, from, to, over *tower) {
	if count == 0 {
		return
	}
	g.move(count-1, from, over, to)
	disk := from.pop()
	to.push(disk)
	g.moves++
	if g.log {
		println(g.moves, "disk", disk, from.name, "to", to.name)
	}
	g.move(count-1, over, to, from)
}

func play(count int, log bool) int {
	a, b, c := &tower{name: "A"}, &tower{name: "B"}, &tower{name: "C"}
	for disk := count; disk > 0; disk-- {
		a.push(disk)
	}
	g := game{log: log}
	g.move(count, a, c, b)
	println("disks", count, "moves", g.moves, "left", len(a.disks), len(b.disks), len(c.disks))
	return g.moves
}

func main() {
	play(3, true)
	play(10, false)
	defer func() { println("refused:", recover().(string)) }()
	t := tower{name: "D"}
	t.push(1)
	t.push(2)
}
