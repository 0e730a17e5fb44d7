package quarantine

import (
	"bytes"
	"context"
	"errors"
	"fmt"
	"io"
	"os"
	"os/exec"
	"path/filepath"
	"strings"
	"syscall"

	"gitpoold/child"
	"gitpoold/tenants"
)

// Push is the repository of one push.
type Push struct {
	// Folder is the bare repository, Objects the folder in it of the push's objects, and Shared that of the tenant's.
	Folder, Objects, Shared string

	leave func()
}

// Close removes the repository.
func (p *Push) Close() {
	_ = os.RemoveAll(p.Folder)
	p.leave()
}

// Hold makes the repository of a push to a tenant: with its refs as they are, what HEAD names, and the objects of a pack that `write` writes, if it is
// not nil. Close removes it.
func (v *Views) Hold(ctx context.Context, t tenants.Tenant, refs []tenants.Ref, head string, write func(io.Writer) error) (*Push, error) {
	shared, leave, err := v.Open(ctx, t, refs)
	if err != nil {
		return nil, err
	}
	folder, err := os.MkdirTemp(v.folder, "push-")
	if err != nil {
		leave()
		return nil, err
	}
	p := &Push{Folder: folder, Objects: filepath.Join(folder, "objects"), Shared: shared, leave: leave}
	if err = p.fill(ctx, refs, head); err == nil && write != nil {
		err = v.indexPack(ctx, folder, write)
	}
	if err != nil {
		p.Close()
		return nil, err
	}
	return p, nil
}

// fill writes what a repository has beside its objects.
func (p *Push) fill(ctx context.Context, refs []tenants.Ref, head string) error {
	if err := createRepository(p.Folder); err != nil {
		return err
	}
	var packed strings.Builder
	for _, it := range refs {
		fmt.Fprintf(&packed, "%v %s\n", it.Target, it.Name)
	}
	for name, text := range map[string]string{"HEAD": "ref: " + head + "\n", "packed-refs": packed.String(),
		"objects/info/alternates": p.Shared + "\n"} {
		if err := os.WriteFile(filepath.Join(p.Folder, name), []byte(text), 0o600); err != nil {
			return err
		}
	}
	return ctx.Err()
}

// indexPack lets git take a pack into a repository, as long as there is room on the disk.
func (v *Views) indexPack(ctx context.Context, folder string, write func(io.Writer) error) error {
	git, err := exec.LookPath("git")
	if err != nil {
		return ErrNoGit
	}
	command := exec.Command(git, "index-pack", "--stdin")
	command.Dir = folder
	command.Env = []string{"PATH=" + os.Getenv("PATH"), "HOME=/", "LC_ALL=C", "GIT_DIR=.", "GIT_CONFIG_NOSYSTEM=1", "GIT_CONFIG_GLOBAL=/dev/null"}
	var said bytes.Buffer
	command.Stderr = &said
	in, err := command.StdinPipe()
	if err != nil {
		return err
	}
	if err := child.StartTied(command); err != nil {
		return err
	}
	ended := make(chan struct{})
	defer close(ended)
	go func() {
		select {
		case <-ctx.Done():
			_ = command.Process.Kill()
		case <-ended:
		}
	}()
	failed := write(&growing{to: in, mayGrow: v.mayGrow})
	in.Close()
	err = command.Wait()
	switch {
	case ctx.Err() != nil:
		return ctx.Err()
	case failed != nil && !errors.Is(failed, syscall.EPIPE):
		return failed
	case err != nil:
		return fmt.Errorf("git index-pack: %w: %s", err, bytes.TrimSpace(said.Bytes()))
	}
	return failed
}
