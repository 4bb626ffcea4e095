// Run lengths and shifted letters, over bytes and over characters.
package main

func shift(text string, by int) string {
	var out []rune
	for _, r := range text {
		switch {
		case 'a' <= r && r <= 'z':
			r = 'a' + (r-'a'+rune(by)+26)%26
		case 'A' <= r && r <= 'Z':
			r = 'A' + (r-'A'+rune(by)+26)%26
		}
		out = append(out, r)
	}
	return string(out)
}

func digits(n int) string {
	if n < 10 {
		return string(rune('0' + n))
	}
	return digits(n/10) + digits(n%10)
}

func encode(text string) string {
	out := ""
	runes := []rune(text)
	for i := 0; i < len(runes); {
		j := i
		for j < len(runes) && runes[j] == runes[i] {
			j++
		}
		if j-i > 1 {
			out += digits(j - i)
		}
		out += string(runes[i])
		i = j
	}
	return out
}

func decode(text string) string {
	out, count := []byte{}, 0
	for _, r := range text {
		if '0' <= r && r <= '9' {
			count = count*10 + int(r-'0')
			continue
		}
		if count == 0 {
			count = 1
		}
		for ; count > 0; count-- {
			out = append(out, string(r)...)
		}
	}
	return string(out)
}

func main() {
	secret := shift("Hello, Wörld! zZ", 3)
	println(secret, shift(secret, -3))
	for _, text := range []string{"aaabccdddd", "xyz", "ééééab", "", "kkkkkkkkkkkk"} {
		coded := encode(text)
		println(text, coded, decode(coded) == text, len(text), len([]rune(text)))
	}
	broken := "a\xffb\xc3"
	for i, r := range broken {
		print(i, ":", r, " ")
	}
	println(len(broken), string([]rune(broken)) == broken)
}
