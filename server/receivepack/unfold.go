package receivepack

import (
	"gitpoold/objects"
	"gitpoold/plumbing"
	"gitpoold/uploadpack"
)

// A push is told path by path. A tree that has another one twice, and so on, has few bytes and more paths than there is room for.

// pathCost is what the line of a file has beside its path.
const pathCost = 51

// The lines of paths may have so many bytes, and so many for each byte that the objects of the push have.
var leastUnfolded int64 = 32 << 20

const unfoldedForByte = 32

var errUnfolds = uploadpack.Refused{Why: "a limit is passed: the directories of the push repeat each other, and unfold to more paths than objects of" +
	" that size may (fault 25)"}

// mostUnfolded is how many bytes the lines of paths may have.
func (p *push) mostUnfolded() int64 { return leastUnfolded + unfoldedForByte*p.own.Bytes() }

// unfolded is what a tree unfolds to: its files, up to one too many, and the bytes of their lines.
type unfolded struct {
	files int32
	bytes int64
}

// unfoldedFiles is what a tree of so many files and bytes unfolds to. An entry has 28 bytes beside its path.
func unfoldedFiles(files, bytes int) unfolded {
	return unfolded{int32(min(files, objects.MostFiles+1)), int64(bytes-28*files) + pathCost*int64(files)}
}

// add adds what stands at one path.
func (u *unfolded) add(below unfolded, path string) {
	u.files += below.files
	u.bytes += below.bytes + int64(below.files)*int64(len(path)+1)
}

// countFiles refuses commits with more files than a branch may have, and those that unfold to too much. What is below trees stands at their places
// as far as it is known; no files are none.
func (p *push) countFiles(below []unfolded) error {
	return p.own.Each(plumbing.Commit, func(at int) error {
		found, err := p.unfold(p.heads[p.own.NameAt(at)].Tree, below, 0)
		switch {
		case err != nil:
			return err
		case found.files > objects.MostFiles:
			return refusal("a commit has more than 1,048,576 files")
		case found.bytes > p.mostUnfolded():
			return errUnfolds
		}
		return nil
	})
}

// unfold counts what is below a tree of the pack. Directories of the tenant count as a file.
func (p *push) unfold(tree plumbing.Name, below []unfolded, depth int) (found unfolded, err error) {
	at, isOwn := p.own.Find(tree)
	if !isOwn || p.own.KindAt(at) != plumbing.Tree {
		return unfolded{1, pathCost}, nil
	}
	if depth > objects.MostComponents {
		return found, objects.TooDeep()
	}
	if below[at].files > 0 {
		return below[at], nil
	}
	contents, err := p.own.ContentsAt(at)
	if err != nil {
		return found, err
	}
	for entry, rest, ok := plumbing.NextEntry(string(contents)); ok && found.files <= objects.MostFiles; entry, rest, ok = plumbing.NextEntry(rest) {
		inside := unfolded{1, pathCost}
		if entry.IsTree() {
			if inside, err = p.unfold(entry.Name, below, depth+1); err != nil {
				return found, err
			}
		}
		found.add(inside, entry.Path)
	}
	below[at] = found
	return found, nil
}
