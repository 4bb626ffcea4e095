// Shortest paths by a heap that takes anything with an order.
package main

type ordered interface{ before(other ordered) bool }

type heap struct{ items []ordered }

func (h *heap) push(item ordered) {
	h.items = append(h.items, item)
	for i := len(h.items) - 1; i > 0; {
		up := (i - 1) / 2
		if !h.items[i].before(h.items[up]) {
			break
		}
		h.items[i], h.items[up] = h.items[up], h.items[i]
		i = up
	}
}

func (h *heap) pop() ordered {
	top, last := h.items[0], len(h.items)-1
	h.items[0] = h.items[last]
	h.items = h.items[:last]
	for i := 0; ; {
		least := i
		for child := 2*i + 1; child <= 2*i+2 && child < last; child++ {
			if h.items[child].before(h.items[least]) {
				least = child
			}
		}
		if least == i {
			return top
		}
		h.items[i], h.items[least] = h.items[least], h.items[i]
		i = least
	}
}

type stop struct {
	town string
	far  int
	from string
}

func (s stop) before(other ordered) bool {
	o := other.(stop)
	return s.far < o.far || s.far == o.far && s.town < o.town
}

type road struct {
	to  string
	far int
}

type roads map[string][]road

func (r roads) add(a, b string, far int) {
	r[a] = append(r[a], road{b, far})
	r[b] = append(r[b], road{a, far})
}

func (r roads) shortest(from, to string) ([]string, int) {
	came := map[string]string{}
	var h heap
	h.push(stop{from, 0, from})
	for len(h.items) > 0 {
		s := h.pop().(stop)
		if _, ok := came[s.town]; ok {
			continue
		}
		came[s.town] = s.from
		if s.town == to {
			path := []string{to}
			for at := to; at != from; {
				at = came[at]
				path = append([]string{at}, path...)
			}
			return path, s.far
		}
		for _, next := range r[s.town] {
			h.push(stop{next.to, s.far + next.far, s.town})
		}
	}
	return nil, -1
}

func main() {
	r := roads{}
	r.add("a", "b", 7)
	r.add("a", "c", 9)
	r.add("a", "f", 14)
	r.add("b", "c", 10)
	r.add("b", "d", 15)
	r.add("c", "d", 11)
	r.add("c", "f", 2)
	r.add("d", "e", 6)
	r.add("e", "f", 9)
	for _, to := range []string{"e", "d", "a", "z"} {
		path, far := r.shortest("a", to)
		print(to, " ", far, ":")
		for _, town := range path {
			print(" ", town)
		}
		println()
	}
}
