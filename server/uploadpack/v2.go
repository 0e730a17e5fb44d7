package uploadpack

import (
	"context"
	"io"
	"strings"

	"gitpoold/pktline"
	"gitpoold/tenants"
)

func advertiseSecond(out *pktline.Writer) error {
	out.Line("version 2")
	out.Line("%s", Agent)
	out.Line("ls-refs=unborn")
	out.Line("fetch=shallow wait-for-done filter sideband-all")
	out.Line("server-option")
	out.Line("object-format=sha1")
	out.FlushPacket()
	return out.Flush()
}

// command is one request of protocol 2: what its arguments ask for, or why one of them is refused.
type command struct {
	name    string
	fetch   *request
	listing listing
	refusal error
}

func (s Server) serveSecond(ctx context.Context, t Repository, reader *pktline.Reader, out *pktline.Writer, isStateless bool) error {
	for {
		reader.Renew()
		c, err := readCommand(reader)
		switch {
		case err == io.EOF || err == nil && c.name == "":
			return nil
		case err != nil:
			out.Band(c.fetch.can[sidebandAll])
			return say(out, err)
		}
		if err := s.carryOut(ctx, t, c, out); err != nil || isStateless {
			return err
		}
	}
}

// carryOut answers one command. An error was told to the client where there is room for it.
func (s Server) carryOut(ctx context.Context, t Repository, c command, out *pktline.Writer) error {
	out.Band(c.fetch.can[sidebandAll])
	defer out.Band(false)
	if c.refusal != nil {
		return say(out, c.refusal)
	}
	ctx, free := s.counted(ctx)
	defer free()
	switch c.name {
	case "ls-refs":
		if err := c.listing.serve(ctx, t, out); err != nil {
			return say(out, err)
		}
		return nil
	case "fetch":
		return s.fetchSecond(ctx, t, c.fetch, out)
	}
	return say(out, refused("the command `%s` is not served", pktline.Show([]byte(c.name))))
}

// readCommand reads a request up to its flush. It is empty where the client ends the session. Of an argument nothing is kept but what it says.
func readCommand(reader *pktline.Reader) (command, error) {
	c := command{fetch: newRequest()}
	isArgument := false
	for {
		packet, err := reader.Next()
		if err != nil {
			return c, err
		}
		text := string(packet.Text)
		switch {
		case packet.Kind == pktline.Flush:
			return c, nil
		case packet.Kind == pktline.Delim:
			isArgument = true
		case packet.Kind != pktline.Data:
			return c, pktline.ErrMalformed
		case isArgument:
			c.argument(text)
		case strings.HasPrefix(text, "command="):
			c.name = text[len("command="):]
		case strings.HasPrefix(text, "object-format=") && text != "object-format=sha1":
			return c, refused("this server has objects of sha1 alone, and no %s", pktline.Show(packet.Text[len("object-format="):]))
		}
	}
}

// sidebandAll asks that all lines of an answer are in bands. The client reads bands then, whatever else is refused.
const sidebandAll = "sideband-all"

// flags of a fetch that have no value.
var fetchFlags = map[string]bool{"done": true, "thin-pack": true, "no-progress": true, "include-tag": true, "ofs-delta": true,
	"deepen-relative": true, "wait-for-done": true, sidebandAll: true}

// argument takes one argument. Once one is refused, the others say nothing any more.
func (c *command) argument(text string) {
	switch {
	case c.name == "fetch" && fetchFlags[text]:
		c.fetch.can[text] = true
	case c.refusal != nil:
	case c.name == "fetch":
		c.refusal = c.fetch.argument(text)
	case c.name == "ls-refs":
		c.refusal = c.listing.argument(text)
	}
}

func (s Server) fetchSecond(ctx context.Context, t Repository, q *request, out *pktline.Writer) error {
	if len(q.wants) == 0 && !q.can["wait-for-done"] {
		return nil
	}
	f, err := s.begin(ctx, t, q, out)
	if err != nil {
		return say(out, err)
	}
	isReady := true
	if len(q.haves) > 0 {
		if isReady, err = f.acknowledge(ctx); err != nil {
			return say(out, err)
		}
	}
	if !isReady || len(q.wants) == 0 {
		return out.Flush()
	}
	return f.answer(ctx)
}

// acknowledge writes the section `acknowledgments`, unless the client is done, and tells whether the pack follows.
func (f *fetch) acknowledge(ctx context.Context) (bool, error) {
	told := distinct(f.haves)
	f.haves = nil
	names, err := held(ctx, f.t, told)
	if err != nil {
		return false, err
	}
	if f.common, err = commitsOf(ctx, f.t, names); err != nil || f.can["done"] {
		return true, err
	}
	f.out.Line("acknowledgments")
	for _, name := range names {
		f.out.Line("ACK %v", name)
	}
	if len(names) == 0 {
		f.out.Line("NAK")
	}
	isReady := false
	if !f.can["wait-for-done"] {
		if isReady, err = f.isReady(ctx); err != nil {
			return false, err
		}
	}
	if !isReady {
		f.out.FlushPacket()
		return false, nil
	}
	f.out.Line("ready")
	f.out.DelimPacket()
	return true, nil
}

// answer writes the sections `shallow-info` and `packfile`.
func (f *fetch) answer(ctx context.Context) error {
	if f.deepening.IsSet() || len(f.shallow) > 0 {
		f.out.Line("shallow-info")
		if err := f.bound(ctx); err != nil {
			return say(f.out, err)
		}
		f.out.DelimPacket()
	}
	f.out.Line("packfile")
	return f.send(ctx, true, false)
}

var _ Repository = tenants.Tenant{}
