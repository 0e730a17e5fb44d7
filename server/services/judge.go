package services

import (
	"context"
	"errors"

	"gitpoold/hooks"
	"gitpoold/limits"
	"gitpoold/quarantine"
	"gitpoold/receivepack"
)

// judge gives what lets the hooks of the tenant judge a push; nil where it has none.
func (u Use) judge() func(context.Context, receivepack.Pushed) ([]string, error) {
	if u.Gateway.Hooks == nil || !u.Gateway.Hooks.Judges(u.Tenant.Name()) {
		return nil
	}
	return u.askHooks
}

// askHooks lets hooks read a push by git, and gives what they refuse.
func (u Use) askHooks(ctx context.Context, p receivepack.Pushed) ([]string, error) {
	held, err := u.Gateway.Views.Hold(ctx, u.Tenant, p.Refs, p.Head, p.Objects)
	if errors.Is(err, quarantine.ErrNoGit) || errors.As(err, new(limits.Passed)) {
		err = told(err)
	}
	if err != nil {
		return nil, err
	}
	defer held.Close()
	return u.Gateway.Hooks.Judge(ctx, hooks.Judged{Push: u.pushOf(p.Changes, p.Options), Folder: held.Folder, Objects: held.Objects,
		Shared: held.Shared, Say: p.Say}), nil
}

// pushOf is what hooks are told of a push.
func (u Use) pushOf(changes []receivepack.Change, options []string) hooks.Push {
	push := hooks.Push{Tenant: u.Tenant.Name(), User: u.User, Options: options}
	for _, it := range changes {
		push.Changes = append(push.Changes, hooks.Change{Ref: it.Ref, Old: it.Old.String(), New: it.New.String()})
	}
	return push
}
