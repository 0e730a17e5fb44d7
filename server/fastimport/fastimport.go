// Package fastimport reads a stream of git-fast-import(1) as it passes, and judges what it tells as pushes are judged: what git's fsck refuses in an
// object that a tenant could keep is refused here too.
//
// It is no importer. It knows where lines and data begin, which lines the program may be long at, and no files, refs or objects but blobs that could
// be no .gitmodules or .gitattributes. What the program refuses it lets pass, so the program's refusal is what the client is told.
package fastimport

import (
	"bytes"
	"context"
	"fmt"

	"gitpoold/fsck"
	"gitpoold/plumbing"
)

// Refused is what a push would be refused for too, as a sentence for the client.
type Refused struct{ what string }

// Error gives the sentence, with the number under which docs/FAULTS.md has more.
func (r *Refused) Error() string {
	return "the stream has " + r.what + ", which is not taken here; what came after its last checkpoint is dropped (fault 25)"
}

func refuse(format string, values ...any) error { return &Refused{fmt.Sprintf(format, values...)} }

// judged refuses where a message is an error. `what` says of what it is.
func judged(what string, found []fsck.Finding) error {
	if fault := fsck.Fault(found); fault != nil {
		return refuse("%s: %s", what, fault)
	}
	return nil
}

// Reader reads one stream.
type Reader struct {
	lexer lexer
	judge judge
	bound bound
	// part is what the current call of Next has read, and isEnded whether it ends there.
	part    Part
	isEnded bool
}

// Look gives an object of the repository at its last checkpoint, or plumbing.ErrMissing.
type Look func(context.Context, plumbing.Name) (plumbing.Object, error)

// New gives a reader that judges by these rules. It looks for objects that the stream has not, and puts where git reads a file.
func New(rules fsck.Rules, look Look) *Reader {
	return &Reader{judge: judge{rules: rules, look: look}}
}

// Part is the front of a piece, which may go to the program at once.
type Part struct {
	Bytes int
	// Heavy is how many lines it ends that the program may be long at.
	Heavy int
	// HasCheckpoint tells whether the program comes to a checkpoint at its end.
	HasCheckpoint bool
}

// Next reads the front of a piece: at most so many bytes, and so many lines that the program may be long at. A line that prints an object ends the
// part, and so does a checkpoint. On an error the stream may not go on behind the part, which has the whole commands before.
func (r *Reader) Next(ctx context.Context, piece []byte, most Part) (Part, error) {
	r.part, r.isEnded = Part{}, false
	if len(piece) > most.Bytes {
		piece = piece[:most.Bytes]
	}
	for r.part.Bytes < len(piece) && r.part.Heavy < most.Heavy && !r.isEnded {
		taken, err := r.lexer.next(piece[r.part.Bytes:], r)
		if err == nil {
			err = r.judge.settle(ctx)
		}
		if err != nil {
			return r.part, err
		}
		r.part.Bytes += taken
		r.bound.bytes += int64(taken)
	}
	return r.part, nil
}

// Most is how many bytes of objects and refs the stream has told at most since the last call of Forget, where no tree of the tenant had more than
// `largest` bytes before.
func (r *Reader) Most(largest int64) int64 {
	if len(r.lexer.line) > 0 {
		// The last line may have no end.
		return unbounded
	}
	return r.bound.most(largest)
}

// Things is how many objects, refs and files the stream has told at most since then.
func (r *Reader) Things() int64 { return r.bound.things }

// Forget lets Most and Things count anew, from a checkpoint on.
func (r *Reader) Forget() { r.bound = bound{} }

// heavy are the first words of lines that the program may be long at: those that read or write trees, or walk through commits.
var heavy = map[string]bool{"commit": true, "from": true, "merge": true, "C": true, "R": true, "ls": true, "reset": true, "tag": true, "alias": true,
	"to": true, "checkpoint": true, "done": true, "cat-blob": true}

func (r *Reader) takeLine(line []byte) error {
	if err := r.judge.takeLine(line); err != nil {
		return err
	}
	word, _, _ := bytes.Cut(line, []byte(" "))
	if heavy[string(word)] || bytes.HasPrefix(line, []byte("M "+modeTree)) {
		r.part.Heavy++
	}
	switch string(word) {
	case "checkpoint":
		r.part.HasCheckpoint, r.isEnded = true, true
	case "cat-blob":
		r.isEnded = true
	case "done":
		r.lexer.isOver = r.judge.isDone
		r.part.HasCheckpoint, r.isEnded = true, true
	}
	r.bound.takeLine(string(word), line)
	return nil
}

func (r *Reader) beginData(size int64) { r.judge.beginData(size) }
func (r *Reader) takeData(part []byte) { r.judge.takeData(part) }
func (r *Reader) endData() error       { return r.judge.endData() }
