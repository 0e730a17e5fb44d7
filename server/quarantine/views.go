// Package quarantine lets hooks that judge a push read its objects by git, before they become part of anything.
//
// A push gets a bare repository of its own, with the tenant's refs as they are and the objects of the push. It borrows the objects that the tenant has
// from a view: a repository with packs of them, which is kept while the server runs and gets what came since at each push. Nothing that a hook does to
// either reaches the tenant.
package quarantine

import (
	"context"
	"errors"
	"fmt"
	"io"
	"os"
	"path/filepath"
	"sync"
	"time"

	"gitpoold/pack"
	"gitpoold/plumbing"
	"gitpoold/tenants"
)

const (
	// mostViews is how many views are kept. Beyond it those go that were used least lately.
	mostViews = 32
	// mostPacks is how many packs a view gets. Then it is made anew, in one pack.
	mostPacks = 32
)

// Views are the repositories of tenants for hooks. Its methods may be called by many goroutines at once.
type Views struct {
	folder  string
	mayGrow func() error

	mutex sync.Mutex
	of    map[string]*view
	made  int
}

// view is the repository of one tenant. Whoever has its turn may change it; `readers` is guarded by the mutex of Views.
type view struct {
	turn    chan struct{}
	folder  string
	tips    []plumbing.Name
	packs   int
	readers int
	used    time.Time
}

// New keeps views in a folder for temporary files. `mayGrow` is asked whether they may take more of its disk.
func New(folder string, mayGrow func() error) (*Views, error) {
	folder, err := filepath.Abs(folder)
	return &Views{folder: folder, mayGrow: mayGrow, of: map[string]*view{}}, err
}

// Open gives the folder of the objects of a tenant, all that its refs reach now, until `leave` is called.
func (v *Views) Open(ctx context.Context, t tenants.Tenant, refs []tenants.Ref) (objects string, leave func(), err error) {
	it := v.enter(t.Name())
	leave = func() { v.leave(it) }
	select {
	case it.turn <- struct{}{}:
	case <-ctx.Done():
		leave()
		return "", nil, ctx.Err()
	}
	defer func() { <-it.turn }()
	if err := v.refresh(ctx, it, t, refs); err != nil {
		it.tips, it.packs = nil, mostPacks
		leave()
		return "", nil, err
	}
	return filepath.Join(it.folder, "objects"), leave, nil
}

// enter counts a reader of a view, which may be a new one.
func (v *Views) enter(tenant string) *view {
	v.mutex.Lock()
	defer v.mutex.Unlock()
	it := v.of[tenant]
	if it == nil {
		v.forgetOne()
		v.made++
		it = &view{turn: make(chan struct{}, 1), folder: filepath.Join(v.folder, fmt.Sprint("view-", v.made))}
		v.of[tenant] = it
	}
	it.readers++
	it.used = time.Now()
	return it
}

func (v *Views) leave(it *view) {
	v.mutex.Lock()
	defer v.mutex.Unlock()
	it.readers--
}

// forgetOne removes the view that nobody reads and that was used least lately, where there are as many as may be.
func (v *Views) forgetOne() {
	oldest := ""
	for name, it := range v.of {
		if it.readers == 0 && (oldest == "" || it.used.Before(v.of[oldest].used)) {
			oldest = name
		}
	}
	if len(v.of) >= mostViews && oldest != "" {
		_ = os.RemoveAll(v.of[oldest].folder)
		delete(v.of, oldest)
	}
}

// Forget removes the view of a tenant that is no more.
func (v *Views) Forget(tenant string) {
	if v == nil {
		return
	}
	v.mutex.Lock()
	defer v.mutex.Unlock()
	if it := v.of[tenant]; it != nil {
		_ = os.RemoveAll(it.folder)
		delete(v.of, tenant)
	}
}

// isAlone tells whether a view has no other reader.
func (v *Views) isAlone(it *view) bool {
	v.mutex.Lock()
	defer v.mutex.Unlock()
	return it.readers == 1
}

// refresh lets a view have what the refs reach. It has a turn.
func (v *Views) refresh(ctx context.Context, it *view, t tenants.Tenant, refs []tenants.Ref) error {
	if it.packs >= mostPacks && v.isAlone(it) {
		it.tips, it.packs = nil, 0
		if err := os.RemoveAll(it.folder); err != nil {
			return err
		}
	}
	if err := createRepository(it.folder); err != nil {
		return err
	}
	tips := targets(refs)
	if len(tips) == 0 {
		return nil
	}
	missing, err := t.Missing(ctx, tips, it.tips)
	if err == nil && missing.Len() > 0 {
		it.packs++
		err = v.indexPack(ctx, it.folder, func(to io.Writer) error { return write(ctx, t, missing, to) })
	}
	if err == nil {
		it.tips = tips
	}
	return err
}

// write writes a pack of a tenant's objects.
func write(ctx context.Context, t tenants.Tenant, objects plumbing.Listing, to io.Writer) error {
	w := pack.NewWriter(to)
	if err := w.Begin(objects.Len()); err != nil {
		return err
	}
	if err := t.Entries(ctx, objects, w.Entries); err != nil {
		return err
	}
	return w.Finish()
}

// growing writes as long as there is room on the disk.
type growing struct {
	to      io.Writer
	mayGrow func() error
	asked   int
}

// askedEvery is after how many bytes it is asked whether there is room.
const askedEvery = 1 << 20

// Write writes, unless the disk has no room.
func (g *growing) Write(data []byte) (int, error) {
	if g.asked -= len(data); g.asked < 0 {
		g.asked = askedEvery
		if err := g.mayGrow(); err != nil {
			return 0, err
		}
	}
	return g.to.Write(data)
}

// targets gives what refs hold, each once.
func targets(refs []tenants.Ref) (all []plumbing.Name) {
	seen := map[plumbing.Name]bool{}
	for _, it := range refs {
		if !seen[it.Target] {
			seen[it.Target] = true
			all = append(all, it.Target)
		}
	}
	return all
}

// createRepository makes an empty bare repository, unless it is there.
func createRepository(folder string) error {
	for _, name := range []string{"objects/info", "objects/pack", "refs/heads", "refs/tags"} {
		if err := os.MkdirAll(filepath.Join(folder, name), 0o700); err != nil {
			return err
		}
	}
	for name, text := range map[string]string{"HEAD": "ref: refs/heads/master\n", "config": "[core]\n\trepositoryformatversion = 0\n\tbare = true\n"} {
		path := filepath.Join(folder, name)
		if _, err := os.Stat(path); errors.Is(err, os.ErrNotExist) {
			if err := os.WriteFile(path, []byte(text), 0o600); err != nil {
				return err
			}
		}
	}
	return nil
}

// ErrNoGit says that the machine has no git, without which no hook can read a push.
var ErrNoGit = fmt.Errorf("the server's machine has no git, by which hooks read pushes")
