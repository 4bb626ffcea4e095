// A search tree of words with their counts, walked in order, and balanced anew.
package main

type tree struct {
	word        string
	count       int
	left, right *tree
}

func (t *tree) add(word string) *tree {
	switch {
	case t == nil:
		return &tree{word: word, count: 1}
	case word < t.word:
		t.left = t.left.add(word)
	case word > t.word:
		t.right = t.right.add(word)
	default:
		t.count++
	}
	return t
}

func (t *tree) walk(visit func(*tree) bool) bool {
	return t == nil || t.left.walk(visit) && visit(t) && t.right.walk(visit)
}

func (t *tree) depth() int {
	if t == nil {
		return 0
	}
	left, right := t.left.depth(), t.right.depth()
	if left < right {
		left = right
	}
	return left + 1
}

func balanced(nodes []*tree) *tree {
	if len(nodes) == 0 {
		return nil
	}
	middle := len(nodes) / 2
	root := nodes[middle]
	root.left, root.right = balanced(nodes[:middle]), balanced(nodes[middle+1:])
	return root
}

func words(text string) []string {
	var list []string
	start := -1
	for i, r := range text + " " {
		isLetter := r >= 'a' && r <= 'z' || r >= 'A' && r <= 'Z' || r > 127
		if isLetter && start < 0 {
			start = i
		} else if !isLetter && start >= 0 {
			list = append(list, text[start:i])
			start = -1
		}
	}
	return list
}

const text = "the cat and the dog and the bird saw the örtliche cat, ándale, and the end"

func main() {
	var root *tree
	for _, word := range words(text) {
		root = root.add(word)
	}
	var nodes []*tree
	root.walk(func(t *tree) bool {
		println(t.word, t.count)
		nodes = append(nodes, t)
		return true
	})
	println("depth", root.depth())
	root = balanced(nodes)
	println("balanced", root.depth(), root.word)
	seen := 0
	root.walk(func(t *tree) bool { seen++; return t.word != "cat" })
	println("seen up to cat", seen)
}
