package fastimport

import "bytes"

// escapes are the bytes that stand for another one behind a backslash.
var escapes = map[byte]byte{'a': 7, 'b': 8, 't': 9, 'n': 10, 'v': 11, 'f': 12, 'r': 13, '"': '"', '\\': '\\'}

// lastPath reads a path that ends with its line. It is false where the program refuses the path.
func lastPath(text []byte) (path []byte, isGood bool) {
	path, rest, isGood := quoted(text)
	if !isGood {
		return text, !bytes.HasPrefix(text, []byte(`"`))
	}
	return path, len(rest) == 0
}

// firstPath reads a path that another one follows.
func firstPath(text []byte) (path, rest []byte, isGood bool) {
	if !bytes.HasPrefix(text, []byte(`"`)) {
		return bytes.Cut(text, []byte(" "))
	}
	path, rest, isGood = quoted(text)
	return path, bytes.TrimPrefix(rest, []byte(" ")), isGood && bytes.HasPrefix(rest, []byte(" "))
}

// quoted reads a path in C style, between quotes, and gives what follows the closing quote.
func quoted(text []byte) (path, rest []byte, isGood bool) {
	if !bytes.HasPrefix(text, []byte(`"`)) {
		return nil, nil, false
	}
	for at := 1; at < len(text); at++ {
		switch text[at] {
		case '"':
			return path, text[at+1:], true
		case '\\':
			b, length := escaped(text[at+1:])
			if length == 0 {
				return nil, nil, false
			}
			path, at = append(path, b), at+length
		default:
			path = append(path, text[at])
		}
	}
	return nil, nil, false
}

// escaped reads what stands behind a backslash, and gives how many bytes that are.
func escaped(text []byte) (b byte, length int) {
	if len(text) == 0 {
		return 0, 0
	}
	if b, known := escapes[text[0]]; known {
		return b, 1
	}
	if len(text) < 3 || text[0] > '3' {
		return 0, 0
	}
	for _, digit := range text[:3] {
		if digit < '0' || digit > '7' {
			return 0, 0
		}
		b = b<<3 | (digit - '0')
	}
	return b, 3
}
