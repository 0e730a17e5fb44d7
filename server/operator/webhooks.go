package operator

import (
	"context"
	"errors"
)

// webhook delivers an event `ping` to an address, by `webhook test ADDRESS`, and answers once the address has taken or refused it.
func (d *Server) webhook(_ context.Context, words []string) (string, error) {
	if words[1] != "test" {
		return "", errors.New("say `webhook test ADDRESS`")
	}
	if d.gateway.Hooks == nil {
		return "", errors.New("this server has no hooks")
	}
	return "", d.gateway.Hooks.Addresses.Test(words[2])
}

// tellHooks has the line of what hooks are still to be told.
func (d *Server) tellHooks(line func(name string, value any)) {
	if d.gateway.Hooks != nil {
		line("hooks-waiting", d.gateway.Hooks.Waiting())
	}
}
