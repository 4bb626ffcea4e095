// Longest common subsequences, edits between words, and a knapsack, by tables.
package main

func table(rows, columns int) [][]int {
	t := make([][]int, rows)
	for i := range t {
		t[i] = make([]int, columns)
	}
	return t
}

func most(a int, more ...int) int {
	for _, b := range more {
		if b > a {
			a = b
		}
	}
	return a
}

func common(a, b string) string {
	t := table(len(a)+1, len(b)+1)
	for i := len(a) - 1; i >= 0; i-- {
		for j := len(b) - 1; j >= 0; j-- {
			if a[i] == b[j] {
				t[i][j] = t[i+1][j+1] + 1
			} else {
				t[i][j] = most(t[i+1][j], t[i][j+1])
			}
		}
	}
	var out []byte
	for i, j := 0, 0; i < len(a) && j < len(b); {
		switch {
		case a[i] == b[j]:
			out = append(out, a[i])
			i++
			j++
		case t[i+1][j] >= t[i][j+1]:
			i++
		default:
			j++
		}
	}
	return string(out)
}

func distance(a, b string) int {
	row := make([]int, len(b)+1)
	for j := range row {
		row[j] = j
	}
	for i := 1; i <= len(a); i++ {
		corner := row[0]
		row[0] = i
		for j := 1; j <= len(b); j++ {
			cost := corner
			if a[i-1] != b[j-1] {
				cost = 1 - most(-corner, -row[j], -row[j-1])
			}
			corner, row[j] = row[j], cost
		}
	}
	return row[len(b)]
}

type thing struct{ weight, value int }

func knapsack(things []thing, room int) int {
	best := make([]int, room+1)
	for _, t := range things {
		for r := room; r >= t.weight; r-- {
			best[r] = most(best[r], best[r-t.weight]+t.value)
		}
	}
	return best[room]
}

func main() {
	println(common("nematode knowledge", "empty bottle"))
	println(distance("kitten", "sitting"), distance("", "abc"), distance("flaw", "lawn"))
	println(knapsack([]thing{{12, 4}, {2, 2}, {1, 1}, {4, 10}, {1, 2}}, 15))
}
