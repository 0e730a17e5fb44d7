package hooks

import "context"

// AwaitEnd waits until a process that child.StartTied has started has ended or the context has, and kills its group. The process is reaped after it,
// by Wait.
func AwaitEnd(ctx context.Context, pid int) { awaitEnd(ctx, pid) }
