package tenants

import (
	"context"
	"errors"
)

// ErrFull says that the tenant has as many bytes as it may have, or would have with this push.
var ErrFull = errors.New("a limit is passed: the repository has as many bytes as its quota allows; nothing of this push was kept (fault 25)")

// usage counts the bytes of tenants, for their quotas.
type usage struct {
	quota func(tenant string) int64
	store Keeper
	// beside gives the bytes that a tenant has beside the pool; nil where there are none.
	beside func(tenant string) int64
}

// Beside lets bytes that tenants have beside the pool count for their quotas, and is called before there are pushes.
func (p *Pool) Beside(bytes func(tenant string) int64) { p.usage.beside = bytes }

// allows gives how many bytes of a tenant its quota leaves to the pool, if it has one.
func (u *usage) allows(tenant string) (most int64, isBounded bool) {
	if most = u.quota(tenant); most > 0 && u.beside != nil {
		return most - u.beside(tenant), true
	}
	return most, most > 0
}

// unlimited is the room of a tenant without a quota.
const unlimited = 1 << 62

// Room gives how many bytes a push to the tenant may bring now, by its quota and by the limits of who made it; ErrFull where there are none. Call it
// before the bytes of a push are taken from the network: what is above it is refused in any case.
func (t Tenant) Room() (int64, error) {
	room, err := t.userRoom()
	if err != nil {
		return 0, err
	}
	most, isBounded := t.pool.usage.allows(t.name)
	if !isBounded {
		return room, nil
	}
	room = min(room, most-t.pool.store.Bytes(t.name))
	if room <= 0 {
		return 0, ErrFull
	}
	return room, nil
}

// RoomCounted gives Room, and asks the child what the tenant has where that leaves none.
func (t Tenant) RoomCounted(ctx context.Context) (int64, error) {
	room, err := t.Room()
	if errors.Is(err, ErrFull) && t.pool.store.Recount(ctx, t.name) == nil {
		room, err = t.Room()
	}
	return room, err
}

// Allows is ErrFull where the tenant may not have so many bytes, by its quota and by the limits of who made it.
func (t Tenant) Allows(bytes int64) error {
	if most, isBounded := t.pool.usage.allows(t.name); isBounded && bytes > most {
		return ErrFull
	}
	more := bytes - t.pool.store.Bytes(t.name)
	if more <= 0 {
		return nil
	}
	room, err := t.userRoom()
	if err == nil && more > room {
		err = ErrUserFull
	}
	return err
}

// Names gives the names of all tenants that have, or were fed, something, in order. Who may see which is for the caller to ask.
func (p *Pool) Names() (names []string) {
	for _, it := range p.store.Usages() {
		names = append(names, it.Name)
	}
	return names
}
