package operator

import (
	"context"
	"errors"
)

// kinds are those of mirrors, by their commands.
var kinds = map[string]string{"mirror": "pull", "push-mirror": "push"}

// mirror runs the mirrors of a tenant, by `mirror run TENANT [--deletions]` or `push-mirror run TENANT`, and answers once they have run.
func (d *Server) mirror(ctx context.Context, words []string) (string, error) {
	mayDelete := len(words) == 4 && words[0] == "mirror" && words[3] == "--deletions"
	if len(words) != 3 && !mayDelete || words[1] != "run" {
		return "", errors.New("say `run TENANT`")
	}
	if d.gateway.Mirrors == nil {
		return "", errors.New("this server has no mirrors")
	}
	return d.gateway.Mirrors.Run(ctx, kinds[words[0]], words[2], mayDelete)
}

// mostFailing is how many mirrors that failed the status names.
const mostFailing = 20

// tellMirrors has the lines of mirrors.
func (d *Server) tellMirrors(line func(name string, value any)) {
	if d.gateway.Mirrors == nil || d.gateway.Mirrors.Count() == 0 {
		return
	}
	failing := d.gateway.Mirrors.Failing()
	line("mirrors", d.gateway.Mirrors.Count())
	line("mirrors-failing", len(failing))
	for at, it := range failing {
		if at == mostFailing {
			break
		}
		line("mirror-failing", it)
	}
}
