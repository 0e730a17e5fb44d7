package plumbing

import "context"

// Memory counts what one request holds. Its methods may be called by many goroutines at once.
type Memory interface {
	// Hold counts bytes until the request has ended. Its error says that these are too many, and ends the request.
	Hold(bytes int64) error
	// Share counts bytes of a list that several requests of a user may hold, once for all of these, until each of them has ended. `list` is a pointer to
	// it. An error ends the request too.
	Share(list any, bytes int64) error
	// Take waits until so many bytes of entries may be held, and gives the call that counts them no more.
	Take(ctx context.Context, bytes int64) (giveBack func(), err error)
	// TryTake does not wait. It is nil where so many may not be held now.
	TryTake(bytes int64) (giveBack func())
}

// memoryKey is the key, among the values of a context, of what counts.
type memoryKey struct{}

// Counted gives a context whose calls count in a memory what they hold.
func Counted(ctx context.Context, memory Memory) context.Context {
	return context.WithValue(ctx, memoryKey{}, memory)
}

// Hold counts bytes in the memory of a context, if it has one.
func Hold(ctx context.Context, bytes int64) error { return MemoryOf(ctx).Hold(bytes) }

// Share counts bytes of a list, which other requests may hold too, in the memory of a context, if it has one.
func Share(ctx context.Context, list any, bytes int64) error {
	return MemoryOf(ctx).Share(list, bytes)
}

// MemoryOf gives the memory of a context, which counts nothing where it has none.
func MemoryOf(ctx context.Context) Memory {
	if memory, has := ctx.Value(memoryKey{}).(Memory); has {
		return memory
	}
	return Endless{}
}

// Endless is a memory that counts nothing.
type Endless struct{}

func (Endless) Hold(int64) error                            { return nil }
func (Endless) Share(any, int64) error                      { return nil }
func (Endless) Take(context.Context, int64) (func(), error) { return func() {}, nil }
func (Endless) TryTake(int64) func()                        { return func() {} }
