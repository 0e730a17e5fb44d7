package tenants

// What a user may have in all tenants that it made stands in this file, as far as a push is about it. Who made what is kept elsewhere (owners).

// Owners knows who made each tenant, and bounds what one user has in all of them.
type Owners interface {
	// Room gives how many bytes a push by a user may bring to a tenant. Its error is a refusal that is ErrFull.
	Room(user, tenant string) (int64, error)
	// Enter begins a push or a stream by a user, while no other one of the tenant is at work: the tenant has an owner from now on, which lasts.
	Enter(user, tenant string) (Reservation, error)
}

// Reservation is the part of one push or stream in what the owner of its tenant has.
type Reservation interface {
	// Take counts bytes, beside those of other pushes that are at work.
	Take(bytes int64) error
	// Leave says that it has ended, so that its bytes are the tenant's. It has left nothing for certain where `hasLeft` is false.
	Leave(hasLeft bool)
}

// Refusals of limits by user, which are ErrFull.
var (
	ErrUserFull = spent("a limit is passed: the user who made this repository has as many bytes in all repositories as `user-bytes` says; " +
		"nothing of this push was kept (fault 25)")
	ErrUserTenants = spent("a limit is passed: this user has made as many repositories as `user-tenants` says; nothing of this push was kept (fault 25)")
)

// spent is a refusal for want of room.
type spent string

func (f spent) Error() string { return string(f) }

// Is tells that this is ErrFull.
func (f spent) Is(err error) bool { return err == ErrFull }

// Visitors is who those are together who have no password.
const Visitors = "*"

// Bound lets the pool count who made which tenant, and is called before there are pushes.
func (p *Pool) Bound(by Owners) { p.owners = by }

// By gives the tenant as a user pushes to it; the user "" is a visitor. Without it a push is the operator's.
func (t Tenant) By(user string) Tenant {
	if t.user = user; user == "" {
		t.user = Visitors
	}
	return t
}

// userRoom gives how many bytes a push may bring by the limits of users.
func (t Tenant) userRoom() (int64, error) {
	if t.pool.owners == nil || t.user == "" {
		return unlimited, nil
	}
	return t.pool.owners.Room(t.user, t.name)
}

// Enter begins a push or a stream, whose tenant's lock is held, or an upload beside the pool.
func (t Tenant) Enter() (Reservation, error) {
	if t.pool.owners == nil || t.user == "" {
		return free{}, nil
	}
	return t.pool.owners.Enter(t.user, t.name)
}

// free is a reservation that counts nothing.
type free struct{}

func (free) Take(int64) error { return nil }
func (free) Leave(bool)       {}
