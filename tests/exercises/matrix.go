// Matrices of integers: products, powers, transposes, and determinants without fractions.
package main

import "errors"

type matrix [][]int

var errShape = errors.New("shapes do not fit")

func identity(n int) matrix {
	m := make(matrix, n)
	for i := range m {
		m[i] = make([]int, n)
		m[i][i] = 1
	}
	return m
}

func (a matrix) times(b matrix) (matrix, error) {
	if len(a) == 0 || len(a[0]) != len(b) {
		return nil, errShape
	}
	product := make(matrix, len(a))
	for i, row := range a {
		product[i] = make([]int, len(b[0]))
		for j := range product[i] {
			for k, value := range row {
				product[i][j] += value * b[k][j]
			}
		}
	}
	return product, nil
}

func (a matrix) transposed() matrix {
	t := make(matrix, len(a[0]))
	for i := range t {
		for _, row := range a {
			t[i] = append(t[i], row[i])
		}
	}
	return t
}

func (a matrix) determinant() int {
	m := make(matrix, len(a))
	for i, row := range a {
		m[i] = append([]int(nil), row...)
	}
	sign, last := 1, 1
	for k := 0; k < len(m)-1; k++ {
		if m[k][k] == 0 {
			swap := k + 1
			for swap < len(m) && m[swap][k] == 0 {
				swap++
			}
			if swap == len(m) {
				return 0
			}
			m[k], m[swap], sign = m[swap], m[k], -sign
		}
		for i := k + 1; i < len(m); i++ {
			for j := k + 1; j < len(m); j++ {
				m[i][j] = (m[i][j]*m[k][k] - m[i][k]*m[k][j]) / last
			}
		}
		last = m[k][k]
	}
	return sign * m[len(m)-1][len(m)-1]
}

func (a matrix) print() {
	for _, row := range a {
		for _, value := range row {
			print(value, " ")
		}
		println()
	}
}

func main() {
	fibonacci := matrix{{1, 1}, {1, 0}}
	power := identity(2)
	for i := 0; i < 30; i++ {
		power, _ = power.times(fibonacci)
	}
	power.print()
	a := matrix{{2, -1, 0}, {1, 3, 5}, {0, 4, -2}}
	println("determinant", a.determinant(), a.transposed().determinant())
	if _, err := a.times(fibonacci); err != nil {
		println("product:", err.Error(), err == errShape)
	}
	a.transposed().print()
}
