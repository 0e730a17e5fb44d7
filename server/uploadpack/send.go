package uploadpack

import (
	"context"
	"fmt"
	"io"

	"gitpoold/pack"
	"gitpoold/packcache"
	"gitpoold/pktline"
	"gitpoold/plumbing"
	"gitpoold/walk"
)

func tagged(o plumbing.Object) (plumbing.Name, bool) {
	if o.Kind != plumbing.Tag {
		return plumbing.Name{}, false
	}
	return plumbing.Tagged(o.Contents)
}

// fetch is one fetch on its way: a request that was checked.
type fetch struct {
	*request
	Server
	t        Repository
	history  *walk.History
	out      *pktline.Writer
	boundary walk.Boundary
	tips     []plumbing.Name // the commits that the wants lead to, once they were asked for
	hasTips  bool
	common   []plumbing.Name // the commits that both sides have
}

// begin checks a request.
func (s Server) begin(ctx context.Context, t Repository, q *request, out *pktline.Writer) (*fetch, error) {
	if err := q.check(ctx, t); err != nil {
		return nil, err
	}
	return &fetch{request: q, Server: s, t: t, history: walk.NewHistory(t), out: out}, nil
}

// leads finds the commits that the wants lead to.
func (f *fetch) leads(ctx context.Context) (err error) {
	if !f.hasTips {
		f.hasTips = true
		f.tips, err = commitsOf(ctx, f.t, f.wants)
	}
	return err
}

// bound finds where the history is to end, and tells the client.
func (f *fetch) bound(ctx context.Context) error {
	if f.deepening.IsSet() {
		if err := f.leads(ctx); err != nil {
			return err
		}
		boundary, err := f.history.Bound(ctx, f.deepening, f.tips, f.shallow)
		if err != nil {
			return err
		}
		f.boundary = boundary
	}
	for _, name := range f.boundary.Shallow {
		f.out.Line("shallow %v", name)
	}
	for _, name := range f.boundary.Unshallow {
		f.out.Line("unshallow %v", name)
	}
	return f.out.Err()
}

// isReady tells whether enough is known of the client.
func (f *fetch) isReady(ctx context.Context) (bool, error) {
	if len(f.common) == 0 {
		return false, nil
	}
	if err := f.leads(ctx); err != nil {
		return false, err
	}
	f.history.Cut(f.shallow)
	return f.history.ReachesAny(ctx, f.tips, f.common)
}

// send writes the pack, in the bands that the client takes.
func (f *fetch) send(ctx context.Context, hasBands, isShort bool) error {
	data, progress := f.out.Bare(), io.Discard
	if hasBands {
		data = f.out.Sideband(pktline.DataChannel, isShort)
		if !f.can["no-progress"] {
			progress = f.out.Sideband(pktline.ProgressChannel, isShort)
		}
	}
	if f.MaySend != nil {
		data = asking{data, f.MaySend}
	}
	err := f.sendPack(ctx, data, progress)
	if err != nil && hasBands {
		fmt.Fprintf(f.out.Sideband(pktline.ErrorChannel, isShort), "%s\n", Sentence(err))
	}
	if hasBands && err == nil {
		f.out.FlushPacket()
	}
	if failed := f.out.Flush(); err == nil {
		err = failed
	}
	return err
}

// asking asks before each part of what is written whether it may.
type asking struct {
	to  io.Writer
	may func() error
}

const askedBytes = 64 << 10

func (a asking) Write(data []byte) (written int, err error) {
	for rest := data; len(rest) > 0 && err == nil; {
		part := rest
		if len(part) > askedBytes {
			part = part[:askedBytes]
		}
		rest = rest[len(part):]
		if err = a.may(); err == nil {
			_, err = a.to.Write(part)
			written += len(part)
		}
	}
	return written, err
}

func (f *fetch) sendPack(ctx context.Context, data, progress io.Writer) error {
	q := walk.Request{Wants: f.wants, Haves: f.common, Was: f.shallow, Boundary: f.boundary, Filter: f.filter}
	var err error
	if f.can["include-tag"] {
		if q.Tags, err = f.following(ctx); err != nil {
			return err
		}
	}
	if isSent, err := f.sendKept(ctx, q, data, progress); isSent {
		return err
	}
	listing, err := walk.Select(ctx, f.t, f.history, q)
	if err != nil {
		return err
	}
	f.history = nil
	return f.write(ctx, nil, listing, data, progress)
}

// sendKept sends a clone of everything by a pack that is kept, and tells whether it did. A client that knows no offsets of deltas gets none.
func (f *fetch) sendKept(ctx context.Context, q walk.Request, data, progress io.Writer) (isSent bool, err error) {
	isClone := len(q.Haves)+len(q.Was) == 0 && !f.deepening.IsSet() && q.Filter == walk.All && f.can["ofs-delta"]
	if !isClone {
		return false, nil
	}
	ctx, free := f.counted(ctx)
	defer free()
	kept := f.Packs.Find(ctx, f.t, packcache.Clone{Wants: q.Wants, Tags: q.Tags})
	if kept == nil {
		return false, nil
	}
	defer kept.Close()
	return true, f.write(ctx, kept, kept.Beside(), data, progress)
}

// write writes one pack of the entries of a kept one, if it is not nil, and of objects that it lacks.
func (f *fetch) write(ctx context.Context, kept *packcache.Pack, listing plumbing.Listing, data, progress io.Writer) error {
	reused, count := 0, listing.Len()
	if kept != nil {
		reused = kept.Kept()
		count += reused
	}
	if count > 0 {
		fmt.Fprintf(progress, "Enumerating objects: %d, done.\nCounting objects: 100%% (%d/%d), done.\n", count, count, count)
	}
	w := pack.NewWriter(data)
	if err := w.Begin(count); err != nil {
		return err
	}
	if kept != nil {
		if err := kept.Entries(ctx, w.Entries); err != nil {
			return err
		}
	}
	if err := f.t.Entries(ctx, listing, w.Entries); err != nil {
		return err
	}
	if err := w.Finish(); err != nil {
		return err
	}
	// (git says the same of a pack whose objects it neither compresses nor copies from another, but for those of a kept one)
	_, err := fmt.Fprintf(progress, "Total %d (delta 0), reused 0 (delta 0), pack-reused %d\n", count, reused)
	return err
}

// followBytes is what is counted for each tag that may follow: it stands in maps, and in lists of what leads where.
const followBytes = 256

// following gives the tags that may follow what is sent. The list of refs is held no longer than that takes.
func (f *fetch) following(ctx context.Context) (map[plumbing.Name]plumbing.Name, error) {
	listing, free := f.counted(ctx)
	defer free()
	refs, _, err := f.t.Refs(listing)
	if err != nil {
		return nil, err
	}
	tags, err := tagsOf(listing, f.t, refs)
	if err == nil {
		err = plumbing.Hold(ctx, followBytes*int64(len(tags)))
	}
	return tags, err
}
