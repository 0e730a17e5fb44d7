// Package audit keeps the file `audit` of a server's folder, to which lines are only appended: what operators changed, and users of their own accounts,
// when, who they are, and from where. A line is on the disk before its change begins, so no change lacks one; what failed has a second line that says why.
package audit

import (
	"bytes"
	"context"
	"io"
	"os"
	"os/user"
	"path/filepath"
	"strconv"
	"strings"

	"gitpoold/logs"
	"gitpoold/regular"
)

// Who is the operator of a change: the user of the system, the one who had logged in before sudo, and from where. What is not known is "".
type Who struct {
	ID          int
	Login, From string
}

// Self gives who runs this process: its user, and the address or terminal that it is run from.
func Self() Who {
	w := Who{ID: os.Getuid(), Login: os.Getenv("SUDO_USER")}
	if text, err := os.ReadFile("/proc/self/loginuid"); err == nil && w.Login == "" {
		w.Login = nameOf(strings.TrimSpace(string(text)))
	}
	w.From, _, _ = strings.Cut(os.Getenv("SSH_CONNECTION"), " ")
	if place, err := os.Readlink("/proc/self/fd/2"); err == nil && w.From == "" && strings.HasPrefix(place, "/dev/") {
		w.From = place
	}
	return w
}

// nameOf gives the name of a user of the system, or the number where it has none.
func nameOf(id string) string {
	if found, err := user.LookupId(id); err == nil {
		return found.Username
	}
	if id == "4294967295" {
		return ""
	}
	return id
}

// Line gives the line of what an operator did.
func (w Who) Line(what string, failed error) logs.Operator {
	id := strconv.Itoa(w.ID)
	return logs.Operator{ID: id, User: nameOf(id), Login: w.Login, From: w.From, What: what, Err: failed}
}

// The words by which a command says before its own words who gives it.
const (
	loginWord = "login="
	fromWord  = "from="
)

// Signed gives the words of a command with those before them that say who gives it.
func (w Who) Signed(words []string) (signed []string) {
	for _, it := range []struct{ word, value string }{{loginWord, w.Login}, {fromWord, w.From}} {
		if it.value != "" {
			signed = append(signed, it.word+strings.Join(strings.Fields(it.value), "_"))
		}
	}
	return append(signed, words...)
}

// Signer takes such words from a command. Whoever may give commands is taken at their word for these two, and for nothing else.
func (w Who) Signer(words []string) (Who, []string) {
	for len(words) > 0 {
		switch {
		case strings.HasPrefix(words[0], loginWord):
			w.Login = strings.TrimPrefix(words[0], loginWord)
		case strings.HasPrefix(words[0], fromWord):
			w.From = strings.TrimPrefix(words[0], fromWord)
		default:
			return w, words
		}
		words = words[1:]
	}
	return w, words
}

type key struct{}

// With lets whoever has the context know who asks.
func (w Who) With(ctx context.Context) context.Context { return context.WithValue(ctx, key{}, w) }

// Of gives who asks in a context; -1 is nobody who is known.
func Of(ctx context.Context) Who {
	if w, has := ctx.Value(key{}).(Who); has {
		return w
	}
	return Who{ID: -1}
}

func path(folder string) string { return filepath.Join(folder, "audit") }

// Note appends the line of what an operator did to the file of a folder. It is on the disk when Note returns nil.
func Note(folder string, who Who, what string, failed error) error {
	return appendLine(folder, func(to *logs.Log) { to.Operator(who.Line(what, failed)) })
}

// NoteAccount appends the line of what a user changed of the own account, as Note does.
func NoteAccount(folder string, it logs.Account) error {
	return appendLine(folder, func(to *logs.Log) { to.Account(it) })
}

func appendLine(folder string, write func(*logs.Log)) error {
	file, err := os.OpenFile(path(folder), os.O_RDWR|os.O_CREATE|os.O_APPEND, 0o600)
	if err != nil {
		return err
	}
	defer file.Close()
	if err := regular.Own(file, folder); err != nil {
		return err
	}
	var text bytes.Buffer
	if isTorn(file) {
		text.WriteByte('\n')
	}
	write(logs.New(&text, nil))
	if _, err := file.Write(text.Bytes()); err != nil {
		return err
	}
	return file.Sync()
}

// isTorn tells whether a crash has cut the last line off.
func isTorn(file *os.File) bool {
	info, err := file.Stat()
	if err != nil || info.Size() == 0 {
		return false
	}
	last := make([]byte, 1)
	_, err = file.ReadAt(last, info.Size()-1)
	return err == nil && last[0] != '\n'
}

// Print writes the file of a folder; one that is not there is empty.
func Print(folder string, to io.Writer) error {
	text, err := regular.Read(path(folder))
	if os.IsNotExist(err) {
		_, err = os.Stat(folder)
	}
	if err == nil {
		_, err = to.Write(text)
	}
	return err
}
