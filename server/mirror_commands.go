package main

import (
	"errors"
	"fmt"
	"strings"
	"time"

	"gitpoold/mirrors"
)

// The commands of mirrors, and how often they run where nothing is said.
var (
	mirrorCommand = command{"mirror", "DIR [TENANT URL [--every TIME] [--user NAME] [--allow-file] | remove TENANT | run TENANT [--deletions]]",
		"list the tenants that are pulled from other hosts, or let one be, as a user of that host whose password is read from standard input; or " +
			"take that back; or pull now", 1, 3, []string{"--every", "--user", "--allow-file", "--deletions", "--socket"}, runMirror}
	pushMirrorCommand = command{"push-mirror", "DIR [TENANT URL [--every TIME] [--user NAME] [--allow-file] | remove TENANT [URL] | run TENANT]",
		"the same for tenants that are pushed to other hosts, after each push", 1, 4,
		[]string{"--every", "--user", "--allow-file", "--socket"}, runPushMirror}
)

const (
	everyPull = time.Hour
	everyPush = 24 * time.Hour
)

func runMirror(l line) error { return mirror(l, mirrors.Pull, everyPull) }

func runPushMirror(l line) error { return mirror(l, mirrors.Push, everyPush) }

// mirror lists the mirrors of a kind, or changes or runs one.
func mirror(l line, kind string, every time.Duration) error {
	folder, words := l.folder, l.words
	switch {
	case len(words) == 0:
		return printLines(mirrors.Rows(folder, kind))
	case len(words) == 2 && strings.Contains(words[1], "://"):
		return addMirror(l, mirrors.Mirror{Kind: kind, Tenant: words[0], URL: words[1], Every: every})
	case words[0] == "remove" && (len(words) == 2 || len(words) == 3 && kind == mirrors.Push):
		url := strings.Join(words[2:], "")
		return change(l, "mirrors", func() error { return mirrors.Remove(folder, kind, words[1], url) })
	case words[0] == "run" && len(words) == 2:
		if _, mayDelete := l.flags["--deletions"]; mayDelete {
			l.words = append(words, "--deletions")
		}
		return runCall(l)
	}
	return errors.New("say `TENANT URL`, `remove TENANT` or `run TENANT`")
}

// addMirror puts a mirror into the list.
func addMirror(l line, m mirrors.Mirror) (err error) {
	if text, has := l.flags["--every"]; has {
		if m.Every, err = time.ParseDuration(text); err != nil {
			return fmt.Errorf("`--every %s` is no time, such as 1h", text)
		}
	}
	if m.User = l.flags["--user"]; m.User != "" {
		if m.Password, err = readPassword(); err != nil {
			return err
		}
	}
	_, mayBeFile := l.flags["--allow-file"]
	return change(l, "mirrors", func() error { return mirrors.Add(l.folder, m, mayBeFile) }, "every", m.Every.String())
}
