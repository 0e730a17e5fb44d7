package hooks

import (
	"encoding/json"

	"gitpoold/webhooks"
)

// body is what an address is told of a push, as JSON.
type body struct {
	Event    string `json:"event"`
	Delivery string `json:"delivery"`
	Push
}

// event gives a push as an address is told of it.
func event(p Push) webhooks.Event {
	if p.Options == nil {
		p.Options = []string{}
	}
	return webhooks.Event{Name: "push", Tenant: p.Tenant, Body: func(delivery string) ([]byte, error) {
		return json.Marshal(body{"push", delivery, p})
	}}
}
