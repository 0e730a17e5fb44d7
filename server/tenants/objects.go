package tenants

import (
	"bytes"
	"context"
	"errors"
	"strconv"
	"strings"

	"gitpoold/child"
	"gitpoold/frames"
	"gitpoold/plumbing"
)

var errAnswer = errors.New("the program that keeps the pool gave an answer of another form")

// Objects asks for objects in windows of bytes: about windowBytes of answers are with one caller at once, by the mean size of
// those before. Where the next ones are larger, those are asked for again that come after mostBytes.
const (
	windowBytes = 1 << 19
	windowNames = 64
	mostBytes   = 2 * windowBytes
)

// Objects calls `use` with each object, in the order of the names. It holds a window of half a megabyte at once, at most a megabyte and
// one object more, and asks for the next window while `use` has the one before. A name that the tenant has not gives
// ErrMissing; an error of `use` ends the call and is given back.
func (t Tenant) Objects(ctx context.Context, names []plumbing.Name, use func(plumbing.Object) error) error {
	ctx, stop := context.WithCancel(ctx)
	defer stop()
	count := min(len(names), windowNames/8)
	next := t.askObjects(ctx, names[:count])
	for len(names) > 0 {
		answers, err := next()
		if err != nil {
			return err
		}
		asked := names[:len(answers)]
		names = names[len(answers):]
		count = min(len(names), window(answers))
		next = t.askObjects(ctx, names[:count])
		if err := useObjects(asked, answers, use); err != nil {
			return err
		}
	}
	return nil
}

// window is how many objects to ask for, where these were the answers before.
func window(answers []frames.Answer) int {
	total := 1
	for _, answer := range answers {
		total += len(answer.Reply)
	}
	return min(windowNames, 1+windowBytes*len(answers)/total)
}

// askObjects begins to ask for objects, and gives the call that waits for the answers.
func (t Tenant) askObjects(ctx context.Context, names []plumbing.Name) func() ([]frames.Answer, error) {
	queries := make([]string, len(names))
	for i, name := range names {
		queries[i] = "cat " + name.String()
	}
	return t.begin(child.InRoom(ctx, mostBytes), child.Bulk, queries)
}

func useObjects(names []plumbing.Name, answers []frames.Answer, use func(plumbing.Object) error) error {
	for i, answer := range answers {
		reply, err := checked(answer)
		if err != nil {
			return err
		}
		object, err := readObject(names[i], reply)
		if err != nil {
			return err
		}
		if err := use(object); err != nil {
			return err
		}
	}
	return nil
}

// readObject reads the answer to `cat`: the name, the kind and the size in a line, the contents, and a line end.
func readObject(name plumbing.Name, reply []byte) (plumbing.Object, error) {
	head, rest, found := bytes.Cut(reply, []byte("\n"))
	words := strings.Split(string(head), " ")
	if !found || len(words) != 3 || words[0] != name.String() {
		return plumbing.Object{}, errAnswer
	}
	kind, known := plumbing.ParseKind(words[1])
	size, err := strconv.Atoi(words[2])
	if !known || err != nil || size < 0 || size > len(rest) {
		return plumbing.Object{}, errAnswer
	}
	return plumbing.Object{Name: name, Kind: kind, Contents: rest[:size]}, nil
}

// Object gives one object, or ErrMissing.
func (t Tenant) Object(ctx context.Context, name plumbing.Name) (found plumbing.Object, err error) {
	err = t.Objects(ctx, []plumbing.Name{name}, func(o plumbing.Object) error { found = o; return nil })
	return found, err
}
