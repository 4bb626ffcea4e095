package main

// Variables of packages with their initialisers, and functions named init.

var f = pick()
var g = func(n int) int { return n }

func pick() func(int) int { return a }

func init() { f(1) }
func init() { h := b; h(2) }

func a(n int) int { return n }
func b(n int) int { return n }

func main() { g(3) }
