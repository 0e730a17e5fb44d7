package tenants

import (
	"context"
	"fmt"
	"strings"

	"gitpoold/plumbing"
)

// SetHead lets HEAD name another branch that the tenant has, by a stream, as a user can.
func (t Tenant) SetHead(ctx context.Context, ref string) error {
	return t.Push(ctx, func(refs Refs) error {
		if !strings.HasPrefix(ref, plumbing.Branches) || refs.Target(ref) == (plumbing.Name{}) {
			return fmt.Errorf("%s has no branch %s", t.name, ref)
		}
		return nil
	}, func(s *Stream) error {
		_, err := s.WriteString("option gitpool head " + ref + "\n")
		return err
	})
}
