// Package uploadpack answers clones and fetches: git-upload-pack(1), with the protocols 0, 1 and 2 of gitprotocol-pack(5) and
// gitprotocol-v2(5).
package uploadpack

import (
	"context"
	"fmt"
	"sort"
	"strings"

	"gitpoold/packcache"
	"gitpoold/pktline"
	"gitpoold/plumbing"
	"gitpoold/tenants"
)

// Repository is what a fetch asks of a tenant.
type Repository interface {
	packcache.Repository
	Has(context.Context, []plumbing.Name) ([]bool, error)
}

// Agent is how the server calls itself to clients.
const Agent = "agent=gitpoold"

const (
	firstCapabilities = "multi_ack multi_ack_detailed no-done side-band side-band-64k ofs-delta thin-pack shallow deepen-since deepen-not" +
		" deepen-relative filter include-tag no-progress allow-tip-sha1-in-want allow-reachable-sha1-in-want object-format=sha1 " + Agent
)

// Advertise writes what stands before the first request: refs and capabilities, or with protocol 2 the capabilities alone. Where it fails before it
// has written anything, the client was told nothing.
func Advertise(ctx context.Context, t Repository, out *pktline.Writer, version int) error {
	if version == 2 {
		return advertiseSecond(out)
	}
	refs, head, err := t.Refs(ctx)
	if err != nil {
		return err
	}
	chains, err := chainsOf(ctx, t, refs, refs)
	if err != nil {
		return err
	}
	if version == 1 {
		out.Line("version 1")
	}
	parts, capabilities := [][]tenants.Ref{refs}, firstCapabilities
	if target, is := targetOf(refs, head); is {
		parts = [][]tenants.Ref{{{Name: "HEAD", Target: target}}, refs}
		capabilities += " symref=HEAD:" + head
	}
	advertise(out, parts, capabilities, chains)
	return out.Flush()
}

// AdvertiseRefs writes refs as protocols 0 and 1 do.
func AdvertiseRefs(out *pktline.Writer, refs []tenants.Ref, capabilities string) {
	advertise(out, [][]tenants.Ref{refs}, capabilities, nil)
}

// advertise writes parts of a list of refs. A tag's line is followed by what the tag is of, if chains has it.
func advertise(out *pktline.Writer, parts [][]tenants.Ref, capabilities string, chains map[plumbing.Name]Chain) {
	tail := "\x00" + capabilities
	for _, refs := range parts {
		for _, ref := range refs {
			out.Line("%v %s%s", ref.Target, ref.Name, tail)
			if chain := chains[ref.Target]; chain.Tags > 0 && strings.HasPrefix(ref.Name, plumbing.Tags) {
				out.Line("%v %s^{}", chain.Peeled, ref.Name)
			}
			tail = ""
		}
	}
	if tail != "" {
		out.Line("%v capabilities^{}%s", plumbing.Name{}, tail)
	}
	out.FlushPacket()
}

func targetOf(refs []tenants.Ref, name string) (plumbing.Name, bool) {
	for _, ref := range refs {
		if ref.Name == name {
			return ref.Target, true
		}
	}
	return plumbing.Name{}, false
}

// listing is a request ls-refs.
type listing struct {
	peel, symrefs, unborn bool
	prefixes              []string
}

// mostPrefixes is from where on prefixes select nothing, as in git.
const mostPrefixes = 65536

// argument takes one line of the request.
func (l *listing) argument(line string) error {
	prefix, isPrefix := strings.TrimPrefix(line, "ref-prefix "), strings.HasPrefix(line, "ref-prefix ")
	switch {
	case line == "peel":
		l.peel = true
	case line == "symrefs":
		l.symrefs = true
	case line == "unborn":
		l.unborn = true
	case isPrefix:
		l.prefixes = append(l.prefixes, prefix)
	default:
		return refused("ls-refs does not know the argument `%s`", pktline.Show([]byte(line)))
	}
	return nil
}

// serve writes the refs that were asked for.
func (l listing) serve(ctx context.Context, t Repository, out *pktline.Writer) error {
	refs, head, err := t.Refs(ctx)
	if err != nil {
		return err
	}
	selected := l.selected(refs)
	var chains map[plumbing.Name]Chain
	if l.peel {
		if chains, err = chainsOf(ctx, t, refs, selected...); err != nil {
			return err
		}
	}
	l.head(out, refs, head)
	for _, part := range selected {
		for _, ref := range part {
			tail := ""
			if chain := chains[ref.Target]; chain.Tags > 0 && strings.HasPrefix(ref.Name, plumbing.Tags) {
				tail = fmt.Sprintf(" peeled:%v", chain.Peeled)
			}
			out.Line("%v %s%s", ref.Target, ref.Name, tail)
		}
	}
	out.FlushPacket()
	return out.Flush()
}

func (l listing) head(out *pktline.Writer, refs []tenants.Ref, head string) {
	if len(l.selected([]tenants.Ref{{Name: "HEAD"}})) == 0 {
		return
	}
	tail := ""
	if l.symrefs {
		tail = " symref-target:" + head
	}
	if target, is := targetOf(refs, head); is {
		out.Line("%v HEAD%s", target, tail)
	} else if l.unborn && l.symrefs {
		out.Line("unborn HEAD%s", tail)
	}
}

// selected gives the parts of a list whose refs begin with one of the prefixes. Refs are in the order of their bytes.
func (l listing) selected(refs []tenants.Ref) (parts [][]tenants.Ref) {
	if len(l.prefixes) == 0 || len(l.prefixes) >= mostPrefixes {
		return [][]tenants.Ref{refs}
	}
	for _, prefix := range shortest(l.prefixes) {
		from := sort.Search(len(refs), func(at int) bool { return refs[at].Name >= prefix })
		count := sort.Search(len(refs)-from, func(at int) bool { return !strings.HasPrefix(refs[from+at].Name, prefix) })
		if count > 0 {
			parts = append(parts, refs[from:from+count])
		}
	}
	return parts
}

// shortest gives prefixes in order, without those that begin with another: so no ref is looked at twice.
func shortest(prefixes []string) (kept []string) {
	sorted := append([]string{}, prefixes...)
	sort.Strings(sorted)
	for _, prefix := range sorted {
		if len(kept) == 0 || !strings.HasPrefix(prefix, kept[len(kept)-1]) {
			kept = append(kept, prefix)
		}
	}
	return kept
}
