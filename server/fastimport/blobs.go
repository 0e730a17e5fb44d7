package fastimport

import (
	"bytes"
	"crypto/sha1"
	"fmt"
	"hash"

	"gitpoold/fsck"
	"gitpoold/pack"
	"gitpoold/plumbing"
)

// heldBlob is how much of a blob is held while it passes. A larger one that speaks of submodules counts as one that cannot be a .gitmodules.
const heldBlob = 128 << 10

// passing is the blob that passes.
type passing struct {
	size int64
	head []byte
	// digest names a blob that is not held whole. It is nil where the size is not known before.
	digest hash.Hash
	// line is how long the current line is so far.
	line    int
	isLong  bool
	hasWord bool
}

// submoduleWord is the name of the sections in which a .gitmodules can do harm, in any case.
var submoduleWord = []byte("submodule")

func (p *passing) begin(size int64) {
	*p = passing{head: p.head[:0]}
	if size > heldBlob {
		p.digest = sha1.New()
		fmt.Fprintf(p.digest, "blob %d\x00", size)
	}
}

func (p *passing) take(part []byte) {
	if p.digest != nil {
		p.digest.Write(part)
	}
	p.measureLines(part)
	p.size += int64(len(part))
	for len(part) > 0 {
		count := heldBlob - len(p.head)
		count = min(count, len(part))
		p.head, part = append(p.head, part[:count]...), part[count:]
		if len(p.head) == heldBlob && p.size > heldBlob {
			p.turnPage()
		}
	}
}

// turnPage looks for the word in what is held of a large blob, and holds on to the end, which may have its front.
func (p *passing) turnPage() {
	p.hasWord = p.hasWord || hasWord(p.head)
	rest := p.head[len(p.head)-len(submoduleWord)+1:]
	p.head = append(p.head[:0], rest...)
}

func (p *passing) measureLines(part []byte) {
	for !p.isLong {
		end := bytes.IndexByte(part, '\n')
		if end < 0 {
			p.line += len(part)
			p.isLong = p.line >= fsck.LongestAttributesLine
			return
		}
		p.isLong = p.line+end >= fsck.LongestAttributesLine
		p.line, part = 0, part[end+1:]
	}
}

// end tells as which of the files that git reads by itself the blob is refused, and its name, which is zero where that is not known.
func (p *passing) end(rules fsck.Rules) (bad fsck.Special, name plumbing.Name) {
	isWhole := p.size <= heldBlob
	if p.hasWord = p.hasWord || hasWord(p.head); p.hasWord && (!isWhole || isBad(rules, p.head)) {
		bad |= fsck.Modules
	}
	if p.isLong {
		bad |= fsck.Attributes
	}
	switch bad &= rules.Refusable(); {
	case bad == 0:
	case isWhole:
		name = pack.NameOf(plumbing.Blob, p.head)
	case p.digest != nil:
		p.digest.Sum(name[:0])
	}
	return bad, name
}

func isBad(rules fsck.Rules, contents []byte) bool {
	return fsck.Fault(rules.Special(plumbing.Object{Kind: plumbing.Blob, Contents: contents}, fsck.Modules)) != nil
}

// hasWord looks for the word by its rarest letter.
func hasWord(text []byte) bool {
	const before, after = 2, 7
	for at := 0; at < len(text); at++ {
		next := bytes.IndexAny(text[at:], "bB")
		if next < 0 {
			return false
		}
		at += next
		if at >= before && at+after <= len(text) && bytes.EqualFold(text[at-before:at+after], submoduleWord) {
			return true
		}
	}
	return false
}

// mostBad is how many blobs of one kind are remembered.
const mostBad = 1 << 16

// badBlobs are blobs that cannot be a file that git reads.
type badBlobs struct {
	marks map[uint64]struct{}
	names map[plumbing.Name]struct{}
}

// add is false where there are too many.
func (b *badBlobs) add(mark uint64, name plumbing.Name) bool {
	if b.marks == nil {
		b.marks, b.names = map[uint64]struct{}{}, map[plumbing.Name]struct{}{}
	}
	if len(b.marks) >= mostBad || len(b.names) >= mostBad {
		return false
	}
	if mark > 0 {
		b.marks[mark] = struct{}{}
	}
	if !name.IsZero() {
		b.names[name] = struct{}{}
	}
	return true
}

func (b *badBlobs) has(mark uint64, name plumbing.Name, isName bool) bool {
	_, isMarked := b.marks[mark]
	_, isNamed := b.names[name]
	return mark > 0 && isMarked || isName && isNamed
}
