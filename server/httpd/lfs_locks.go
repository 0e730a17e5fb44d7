package httpd

import (
	"context"
	"net/http"
	"strconv"

	"gitpoold/access"
	"gitpoold/lfs"
	"gitpoold/tenants"
)

// owner is under which name a user has locks: a token is its user.
func (e *exchange) owner() string {
	if e.record.User == "" {
		return tenants.Visitors
	}
	return access.Person(e.record.User)
}

// listLocks lists the locks, or those of a path or an id.
func (e *exchange) listLocks(_ context.Context, t tenants.Tenant) (any, error) {
	query := e.r.URL.Query()
	limit, _ := strconv.Atoi(query.Get("limit"))
	all, err := e.LFS.Locks(t.Name())
	var found []lfs.Lock
	for _, it := range all {
		if path, id := query.Get("path"), query.Get("id"); (path == "" || path == it.Path) && (id == "" || id == it.ID) {
			found = append(found, it)
		}
	}
	part, next := lfs.Page(found, query.Get("cursor"), limit)
	return struct {
		Locks []lfs.Lock `json:"locks"`
		Next  string     `json:"next_cursor,omitempty"`
	}{part, next}, err
}

// verifyLocks lists the locks of the user apart from those of others, before a push.
func (e *exchange) verifyLocks(_ context.Context, t tenants.Tenant) (any, error) {
	var asked struct {
		Cursor string
		Limit  int
	}
	if err := e.hear(&asked); err != nil {
		return nil, err
	}
	all, err := e.LFS.Locks(t.Name())
	part, next := lfs.Page(all, asked.Cursor, asked.Limit)
	ours, theirs := []lfs.Lock{}, []lfs.Lock{}
	for _, it := range part {
		if it.Owner.Name == e.owner() {
			ours = append(ours, it)
		} else {
			theirs = append(theirs, it)
		}
	}
	return struct {
		Ours   []lfs.Lock `json:"ours"`
		Theirs []lfs.Lock `json:"theirs"`
		Next   string     `json:"next_cursor,omitempty"`
	}{ours, theirs, next}, err
}

// lockAnswer is what a client is told of one lock.
type lockAnswer struct {
	Lock    lfs.Lock `json:"lock"`
	Message string   `json:"message,omitempty"`
}

// lock locks a path for the user.
func (e *exchange) lock(_ context.Context, t tenants.Tenant) (any, error) {
	var asked struct{ Path string }
	if err := e.hear(&asked); err != nil {
		return nil, err
	}
	made, err := e.LFS.AddLock(t.Name(), asked.Path, e.owner())
	switch err {
	case nil:
		e.sayLFS(http.StatusCreated, lockAnswer{Lock: made})
	case lfs.ErrLocked:
		e.sayLFS(http.StatusConflict, lockAnswer{made, err.Error()})
	default:
		return nil, err
	}
	return nil, nil
}

// unlock takes a lock away.
func (e *exchange) unlock(_ context.Context, t tenants.Tenant) (any, error) {
	var asked struct{ Force bool }
	if err := e.hear(&asked); err != nil {
		return nil, err
	}
	taken, err := e.LFS.RemoveLock(t.Name(), e.item, e.owner(), asked.Force)
	return lockAnswer{Lock: taken}, err
}
