// A cache of a fixed size that gives up what was used longest ago.
package main

type entry struct {
	key, value   string
	newer, older *entry
}

type cache struct {
	size           int
	entries        map[string]*entry
	newest, oldest *entry
	hits, misses   int
}

func newCache(size int) *cache {
	return &cache{size: size, entries: make(map[string]*entry, size)}
}

func (c *cache) unlink(e *entry) {
	if e.newer != nil {
		e.newer.older = e.older
	} else {
		c.newest = e.older
	}
	if e.older != nil {
		e.older.newer = e.newer
	} else {
		c.oldest = e.newer
	}
	e.newer, e.older = nil, nil
}

func (c *cache) link(e *entry) {
	e.older = c.newest
	if c.newest != nil {
		c.newest.newer = e
	} else {
		c.oldest = e
	}
	c.newest = e
}

func (c *cache) get(key string) (value string, ok bool) {
	e, ok := c.entries[key]
	if !ok {
		c.misses++
		return
	}
	c.hits++
	c.unlink(e)
	c.link(e)
	return e.value, true
}

func (c *cache) put(key, value string) {
	if e, ok := c.entries[key]; ok {
		c.unlink(e)
		delete(c.entries, key)
	} else if len(c.entries) == c.size {
		println("gives up", c.oldest.key)
		delete(c.entries, c.oldest.key)
		c.unlink(c.oldest)
	}
	e := &entry{key: key, value: value}
	c.entries[key] = e
	c.link(e)
}

func (c *cache) print() {
	for e := c.newest; e != nil; e = e.older {
		print(e.key, "=", e.value, " ")
	}
	println("hits", c.hits, "misses", c.misses)
}

func main() {
	c := newCache(3)
	c.put("a", "1")
	c.put("b", "2")
	c.put("c", "3")
	if value, ok := c.get("a"); ok {
		println("a is", value)
	}
	c.put("d", "4")
	_, ok := c.get("b")
	println("b is there:", ok)
	c.put("c", "33")
	c.put("e", "5")
	c.print()
}
