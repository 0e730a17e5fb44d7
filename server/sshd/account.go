package sshd

import (
	"context"
	"errors"
	"io"
	"strings"

	"gitpoold/account"
	"gitpoold/logs"
)

// accountVerb begins the commands by which users look after their own accounts.
const accountVerb = "account"

// parseAccount reads the words of such a command. A word may stand in single quotes.
func parseAccount(command string) (words []string, ok bool) {
	const longest = 1024
	fields := strings.Fields(command)
	if len(command) > longest || len(fields) == 0 || fields[0] != accountVerb {
		return nil, false
	}
	for _, it := range fields[1:] {
		if strings.HasPrefix(it, "'") {
			word, isWhole := unquote(it)
			if !isWhole {
				return nil, false
			}
			it = word
		}
		words = append(words, it)
	}
	return words, true
}

// runAccount carries out such a command, and gives its status.
func (s *session) runAccount(ctx context.Context, words []string) uint32 {
	leave, err := s.Limits.Enter(s.user, s.address)
	if err != nil {
		return s.say(err.Error())
	}
	defer leave()
	ctx, stop := context.WithTimeout(ctx, s.Limits.Get().Request)
	defer stop()
	record := &logs.Request{Protocol: "ssh", Address: s.address, User: s.user, What: shownAccount(words)}
	user := account.User{Gateway: s.Gateway, Login: s.user, Address: s.address}
	record.Err = user.Carry(ctx, words, s.channel, counted{s.channel, &record.Out})
	switch {
	case errors.Is(record.Err, account.ErrWords):
		record.Status = usage
	case record.Err != nil:
		record.Status = failed
	}
	if record.Err != nil {
		s.say(record.Err.Error())
	}
	s.Log.Request(*record)
	return uint32(record.Status)
}

// shownAccount is such a command as the log has it, without a password that somebody gave as a word.
func shownAccount(words []string) string {
	if len(words) > 1 && words[0] == "password" {
		words = words[:1]
	}
	return strings.Join(append([]string{accountVerb}, words...), " ")
}

// counted counts what is written.
type counted struct {
	to    io.Writer
	count *int64
}

// Write writes and counts.
func (c counted) Write(data []byte) (int, error) {
	n, err := c.to.Write(data)
	*c.count += int64(n)
	return n, err
}
