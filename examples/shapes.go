package main

type Shape interface{ Area() int }

type Square struct{ n int }

func (s Square) Area() int { return s.n * s.n }

type Line struct{ n int }

func (l Line) Area() int { return 0 }

type Cube struct{ n int }

func (c Cube) Area() int { return 6 * c.n * c.n }

func area(s Shape) int { return s.Area() }

func main() {
	var l Shape = Line{5}
	println(l != nil, area(Square{3}))
}
