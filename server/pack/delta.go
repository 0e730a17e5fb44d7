package pack

import "encoding/binary"

// Patch carries out a delta: gitformat-pack(5), "Deltified representation". The result has at most so many bytes. Memory is
// taken as the result grows, and what a delta only claims is not allocated.
func Patch(base, delta []byte, most int64) ([]byte, error) {
	was, delta, ok := takeSize(delta)
	if !ok || was != uint64(len(base)) {
		return nil, errDelta
	}
	size, delta, ok := takeSize(delta)
	if !ok {
		return nil, errDelta
	}
	if size > uint64(most) {
		return nil, tooLong(most)
	}
	out := make([]byte, 0, min(int(size), len(base)+len(delta)))
	for len(delta) > 0 {
		if out, delta, ok = carryOut(out, base, delta); !ok || len(out) > int(size) {
			return nil, errDelta
		}
	}
	if len(out) != int(size) {
		return nil, errDelta
	}
	return out, nil
}

func takeSize(delta []byte) (size uint64, rest []byte, ok bool) {
	size, n := binary.Uvarint(delta)
	if n <= 0 || size > 1<<48 {
		return 0, nil, false
	}
	return size, delta[n:], true
}

// carryOut carries out the first instruction: bytes that stand in the delta, or a part of the base.
func carryOut(out, base, delta []byte) (after, rest []byte, ok bool) {
	code := delta[0]
	delta = delta[1:]
	if code&0x80 == 0 {
		n := int(code)
		if n == 0 || n > len(delta) {
			return nil, nil, false
		}
		return append(out, delta[:n]...), delta[n:], true
	}
	at, delta, ok := takeNumber(delta, code, 4)
	if !ok {
		return nil, nil, false
	}
	n, delta, ok := takeNumber(delta, code>>4, 3)
	if n == 0 {
		n = 0x10000
	}
	if !ok || at+n > len(base) {
		return nil, nil, false
	}
	return append(out, base[at:at+n]...), delta, true
}

// takeNumber reads those bytes of a little-endian number that have a bit in the code.
func takeNumber(delta []byte, code byte, bytes int) (number int, rest []byte, ok bool) {
	for at := 0; at < bytes; at++ {
		if code>>at&1 == 0 {
			continue
		}
		if len(delta) == 0 {
			return 0, nil, false
		}
		number |= int(delta[0]) << (8 * at)
		delta = delta[1:]
	}
	return number, delta, true
}
