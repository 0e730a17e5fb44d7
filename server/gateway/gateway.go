// Package gateway has what each way in needs: the tenants, who may do what, the limits, and the log.
package gateway

import (
	"context"
	"errors"
	"fmt"
	"time"

	"gitpoold/access"
	"gitpoold/catalogue"
	"gitpoold/dailyquota"
	"gitpoold/hooks"
	"gitpoold/lfs"
	"gitpoold/limits"
	"gitpoold/logs"
	"gitpoold/metrics"
	"gitpoold/owners"
	"gitpoold/packcache"
	"gitpoold/pages"
	"gitpoold/protect"
	"gitpoold/quarantine"
	"gitpoold/tenants"
)

// Refusals, as clients see them.
var (
	// ErrNotFound is the answer for a tenant that the user may not see, whether or not there is one, and for a bad name.
	ErrNotFound = errors.New("there is no such repository, or you may not read it")
	// ErrReadOnly is the answer to a push by who may only read.
	ErrReadOnly = errors.New("you may read this repository, and not push to it")
)

// Mirrored is the answer to a push to a tenant that is pulled from another host.
type Mirrored struct{ URL string }

func (m Mirrored) Error() string {
	return "this repository is a mirror of " + m.URL + " and takes no pushes; push there"
}

// Gateway is one server's: what http, ssh and the operator's socket share.
type Gateway struct {
	Pool    *tenants.Pool
	Access  *access.Access
	Limits  *limits.Limits
	Log     *logs.Log
	Metrics *metrics.Metrics
	// Owners has who made each tenant; nil has nobody.
	Owners *owners.Owners
	// Daily counts what users take in a day; nil counts nothing.
	Daily *dailyquota.Ledger
	// Catalogue has what the list of repositories says of each; nil says nothing.
	Catalogue *catalogue.Catalogue
	// Hooks are told of pushes; nil has none.
	Hooks *hooks.Hooks
	// Protected has the refs that may not change in every way; nil has none.
	Protected *protect.Protected
	// Views lets hooks that judge pushes read them by git; nil where no hook does.
	Views *quarantine.Views
	// LFS has the large files of tenants; nil has none.
	LFS *lfs.Store
	// Packs keeps packs for clones; nil keeps none.
	Packs *packcache.Cache
	// Mirrors are tenants that are the same as repositories elsewhere; nil has none.
	Mirrors Mirrors
	// Work is a folder for files that requests need while they last; the server empties it when it starts. Where it is "", they go to
	// the system's place for such files.
	Work string
	// Version is that of the program.
	Version string
	// Elsewhere gives the sentence with which pushes are refused while another server takes them; nil, or one that gives nil, takes pushes.
	Elsewhere func() error
	// SSHPort is where git finds the server over ssh, 0 where it does not; pages show it.
	SSHPort int
	// URL is that of the server over http, as far as its options say it, or "".
	URL string
	// Folder is the server's, which has the audit of operators; "" has none.
	Folder string
	// Markdown writes a README for pages; nil shows it as text.
	Markdown func(contents []byte, resolve func(path, fragment string, isImage bool) string) (string, error)
	// Highlight parts a file by colours for pages; nil shows it without.
	Highlight pages.Highlight
}

// Mirrors are what the package mirrors keeps.
type Mirrors interface {
	// Refuses is the sentence for who pushes to a tenant that is pulled from elsewhere, and nil for other tenants.
	Refuses(tenant string) error
	// Pushed is told of each tenant in which a ref has changed. It waits for nothing.
	Pushed(tenant string)
	// Run runs the mirrors of a tenant of one kind, and says what became of them.
	Run(ctx context.Context, kind, tenant string, mayDelete bool) (string, error)
	// Count is how many there are, and Failing has a line for each whose last run did not go well.
	Count() int
	Failing() []string
	// Unread says why their list cannot be read.
	Unread() error
}

// Open gives a tenant to a user who wants this right to it; the user "" is a visitor without a password. What it answers depends on
// grants and blocks alone, and not on whether the tenant has anything. It is *access.Blocked where the operator has blocked the user, or the
// tenant, if the user may read that.
func (s *Gateway) Open(user, tenant string, right access.Right) (tenants.Tenant, error) {
	has := access.None
	if tenants.ValidName(tenant) {
		has = s.Access.Right(user, tenant)
	}
	if err := s.Access.Blocked(user, "", right); err != nil {
		return tenants.Tenant{}, err
	}
	switch {
	case has == access.None:
		return tenants.Tenant{}, ErrNotFound
	case has < right:
		return tenants.Tenant{}, ErrReadOnly
	}
	if err := s.Access.Blocked(user, tenant, right); err != nil {
		return tenants.Tenant{}, err
	}
	if right == access.Write && s.Elsewhere != nil {
		if err := s.Elsewhere(); err != nil {
			return tenants.Tenant{}, err
		}
	}
	if right == access.Write && s.Mirrors != nil {
		if err := s.Mirrors.Refuses(tenant); err != nil {
			return tenants.Tenant{}, err
		}
	}
	opened, err := s.Pool.Tenant(tenant)
	return opened.By(access.Person(user)), err
}

// lookEvery is how often the blocks are looked at for all users who are at work.
const lookEvery = 200 * time.Millisecond

// Watch gives a context for a user who is at work on a tenant. Where the operator blocks one of the two, the context ends, and `cut` is called
// with the refusal, which ends the connection. The call that is given ends the watch.
func (s *Gateway) Watch(ctx context.Context, user, tenant string, right access.Right, cut func(error)) (context.Context, func()) {
	watched, stop := context.WithCancel(ctx)
	go func() {
		ticker := time.NewTicker(lookEvery)
		defer ticker.Stop()
		for {
			select {
			case <-watched.Done():
				return
			case <-ticker.C:
			}
			if err := s.Access.BlockedWithin(lookEvery, user, tenant, right); err != nil {
				cut(err)
				stop()
				return
			}
		}
	}()
	return watched, stop
}

// Read reads the lists of the operator again that belong to one of these: access, limits, hooks, protected, lfs or mirrors. The error says why they
// cannot be read, so that what was read before holds.
func (s *Gateway) Read(list string) error {
	of := map[string]interface{ Unread() error }{"access": s.Access, "limits": s.Limits}
	if s.Hooks != nil {
		of["hooks"] = s.Hooks
	}
	if s.Protected != nil {
		of[protect.FileName] = s.Protected
	}
	if s.LFS != nil {
		of[lfs.ListName] = s.LFS
	}
	if s.Catalogue != nil {
		of[catalogue.FileName] = s.Catalogue
	}
	if s.Mirrors != nil {
		of["mirrors"] = s.Mirrors
	}
	it, has := of[list]
	if !has {
		return fmt.Errorf("there is no list %q", list)
	}
	return it.Unread()
}

// Unread says why lists of the operator cannot be read, so that what was read before holds.
func (s *Gateway) Unread() (all []error) {
	of := []string{"access", "limits"}
	if s.Hooks != nil {
		of = append(of, "hooks")
	}
	if s.Protected != nil {
		of = append(of, protect.FileName)
	}
	if s.LFS != nil {
		of = append(of, lfs.ListName)
	}
	if s.Catalogue != nil {
		of = append(of, catalogue.FileName)
	}
	if s.Mirrors != nil {
		of = append(of, "mirrors")
	}
	for _, it := range of {
		if err := s.Read(it); err != nil {
			all = append(all, err)
		}
	}
	return all
}

// Protects says why a login may not change a ref of a tenant so, or nothing. The error is that of the change.
func (s *Gateway) Protects(login, tenant string, c protect.Change) (why string, err error) {
	return s.Protected.Of(tenant).Refusal(c, func(names []string) bool { return s.Access.IsOneOf(login, names) })
}

// Changed tells the log, the hooks and the mirrors which refs a user's push or stream changed.
func (s *Gateway) Changed(address string, push hooks.Push) {
	for _, it := range push.Changes {
		s.Log.Change(logs.Change{Address: address, User: push.User, Tenant: push.Tenant, Ref: it.Ref, Old: it.Old, New: it.New})
	}
	if s.Hooks != nil && len(push.Changes) > 0 {
		s.Hooks.Tell(push)
	}
	if len(push.Changes) > 0 {
		s.Catalogue.Note(push.Tenant)
	}
	if s.Mirrors != nil && len(push.Changes) > 0 {
		s.Mirrors.Pushed(push.Tenant)
	}
}

// PublicURL is at which address users find the server over http: as the operator says it, or as the server's options do; "" where nobody does.
func (s *Gateway) PublicURL() string {
	if said := s.Limits.Get().PublicURL; said != "" {
		return said
	}
	return s.URL
}
