// Package services has what http and ssh do alike: the two services of git, for a user and a tenant.
package services

import (
	"bufio"
	"context"
	"io"
	"strings"

	"gitpoold/access"
	"gitpoold/child"
	"gitpoold/dailyquota"
	"gitpoold/gateway"
	"gitpoold/limits"
	"gitpoold/pack"
	"gitpoold/pktline"
	"gitpoold/plumbing"
	"gitpoold/protect"
	"gitpoold/receivepack"
	"gitpoold/tenants"
	"gitpoold/uploadpack"
)

// The services, as git names them.
const (
	UploadPack  = "git-upload-pack"
	ReceivePack = "git-receive-pack"
)

// IsService tells whether git has a service of this name here.
func IsService(name string) bool { return name == UploadPack || name == ReceivePack }

// Right is what a user needs for a service.
func Right(service string) access.Right {
	if service == ReceivePack {
		return access.Write
	}
	return access.Read
}

// Version reads which protocol a client speaks, from its GIT_PROTOCOL or Git-Protocol: key=value pairs between colons.
func Version(text string) int {
	for _, pair := range strings.Split(text, ":") {
		switch pair {
		case "version=2":
			return 2
		case "version=1":
			return 1
		}
	}
	return 0
}

// Use is one use of a service.
type Use struct {
	Gateway       *gateway.Gateway
	Service       string
	Version       int // of the protocol
	User, Address string
	Tenant        tenants.Tenant
	Meter         *dailyquota.Meter
	In            io.Reader
	Out           *pktline.Writer
}

// Advertise writes what stands before the first request. Where it fails before it has written anything, the client was told nothing.
func (u Use) Advertise(ctx context.Context) error {
	memory := u.memory()
	defer memory.Free()
	ctx = plumbing.Counted(child.Charging(ctx, u.Meter.AddChild), memory)
	if u.Service == ReceivePack {
		return receivepack.Advertise(ctx, u.Tenant, u.Out, u.Version)
	}
	return uploadpack.Advertise(ctx, u.Tenant, u.Out, u.Version)
}

// Serve answers what follows: one request, or a whole session. It writes each ref that a push changed to the log, and lets hooks be told.
func (u Use) Serve(ctx context.Context, isStateless bool) error {
	ctx = child.Charging(ctx, u.Meter.AddChild)
	held := lines{u.Gateway.Limits.Lines(u.User, u.Address)}
	defer held.Free()
	if u.Service == UploadPack {
		in := bufio.NewReaderSize(u.In, 1<<16)
		server := uploadpack.Server{MaySend: u.mayGoOn, Lines: held, Memory: u.memory, Packs: u.Gateway.Packs}
		return server.Serve(ctx, u.Tenant, in, u.Out, u.Version, isStateless)
	}
	in := bufio.NewReaderSize(&refusing{from: u.In, mayGoOn: u.mayGoOn}, 1<<16)
	spool := u.Gateway.Limits.Spool(u.User, u.Address)
	defer spool.Free()
	most := pack.Usual
	most.MayGrow = u.mayGrow(spool)
	most.PackBytes = u.Gateway.Limits.Get().RequestBytes
	server := receivepack.Server{Folder: u.Gateway.Work, Limits: most, Rules: u.Gateway.Limits.Get().Fsck, Lines: held, EndsItself: isStateless,
		Lasts: u.tell, Judge: u.judge(), Protects: func(c protect.Change) (string, error) { return u.Gateway.Protects(u.User, u.Tenant.Name(), c) }}
	result, err := server.Serve(ctx, u.Tenant, in, u.Out)
	if result.Failed != nil {
		u.Gateway.Log.Printf("a push by %q to %s failed: %v", u.User, u.Tenant.Name(), result.Failed)
	}
	return err
}

// lines tells a client in a sentence that its user's requests hold too many lines.
type lines struct{ *limits.Held }

func (l lines) Hold(bytes int64) error { return told(l.Held.Hold(bytes)) }

// fetch tells a client in a sentence that its user's fetches hold too much.
type fetch struct{ limits.Fetch }

func (f fetch) Hold(bytes int64) error { return told(f.Fetch.Hold(bytes)) }

func (f fetch) Share(list any, bytes int64) error { return told(f.Fetch.Share(list, bytes)) }

// memory counts what a fetch holds that begins.
func (u Use) memory() uploadpack.Memory { return fetch{u.Gateway.Limits.Fetch(u.User, u.Address)} }

// told makes a refusal of an error, with its sentence.
func told(err error) error {
	if err != nil {
		return uploadpack.Refused{Why: err.Error()}
	}
	return nil
}

// mayGoOn refuses what goes beyond what the user may take in a day.
func (u Use) mayGoOn() error { return told(u.Meter.Err()) }

// mayGrow gives what lets the temporary file of a push, and the list of what its pack has, grow: as far as its user's pushes may have them, and the
// journal keeps its room on the disk.
func (u Use) mayGrow(spool *limits.Held) func(bytes int64) error {
	return func(bytes int64) error {
		err := u.Gateway.Limits.MayGrow(u.Gateway.Work)
		if err == nil {
			err = spool.Hold(bytes)
		}
		return told(err)
	}
}

// refusing reads until it may not go on, and gives that error once. What is read after it is the rest of a push that was refused.
type refusing struct {
	from    io.Reader
	mayGoOn func() error
	refused error
}

func (r *refusing) Read(into []byte) (int, error) {
	if r.refused == nil {
		if r.refused = r.mayGoOn(); r.refused != nil {
			return 0, r.refused
		}
	}
	return r.from.Read(into)
}

// tell tells the log and the hooks what a push changed.
func (u Use) tell(result receivepack.Result) {
	u.Gateway.Changed(u.Address, u.pushOf(result.Changes, result.Options))
}

// Counting counts the bytes that pass.
type Counting struct {
	From  io.Reader
	To    io.Writer
	Count *int64
	Meter *dailyquota.Meter
}

// Read reads and counts.
func (c Counting) Read(into []byte) (int, error) {
	n, err := c.From.Read(into)
	*c.Count += int64(n)
	c.Meter.Add(n)
	return n, err
}

// Write writes and counts.
func (c Counting) Write(data []byte) (int, error) {
	n, err := c.To.Write(data)
	*c.Count += int64(n)
	c.Meter.Add(n)
	return n, err
}
