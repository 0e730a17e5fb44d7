package account

import (
	"context"
	"errors"
	"fmt"
	"io"
	"strings"
)

// Words says which words the command takes.
const Words = "account; account keys; account keys add, with the keys on standard input; account keys remove FINGERPRINT; account password, with" +
	" it on standard input; account token; account token create PATTERN r|rw END; account token remove TOKEN"

// ErrWords says that the words are none of these.
var ErrWords = errors.New("this server takes " + Words)

// Carry carries out what the words behind `account` say, and writes what there is to tell. ErrWords says that they are no command.
func (u User) Carry(ctx context.Context, words []string, in io.Reader, out io.Writer) error {
	switch strings.Join(head(words, 2), " ") {
	case "":
		return tell(out)(u.Show())
	case "keys":
		return tell(out)(u.Keys())
	case "token":
		return tell(out)(u.Tokens())
	}
	return u.carryChange(ctx, words, in, out)
}

// carryChange carries out the words that change something.
func (u User) carryChange(ctx context.Context, words []string, in io.Reader, out io.Writer) error {
	switch what := strings.Join(head(words, 2), " "); {
	case what == "keys add" && len(words) == 2:
		text, err := u.input(in)
		if err != nil {
			return err
		}
		return tell(out)(u.AddKeys(ctx, text))
	case what == "keys remove" && len(words) == 3:
		return u.RemoveKey(ctx, words[2])
	case what == "password" && len(words) == 1:
		text, err := u.input(in)
		if err != nil {
			return err
		}
		line, _, _ := strings.Cut(string(text), "\n")
		return u.SetPassword(ctx, strings.TrimSuffix(line, "\r"))
	case what == "token create" && len(words) == 5:
		login, secret, err := u.NewToken(ctx, words[2], words[3], words[4])
		if err == nil {
			_, err = fmt.Fprintln(out, login, secret)
		}
		return err
	case what == "token remove" && len(words) == 3:
		return u.RemoveToken(ctx, words[2])
	}
	return ErrWords
}

// head gives the first words, or all where there are fewer.
func head(words []string, most int) []string {
	if len(words) > most {
		return words[:most]
	}
	return words
}

// input reads what stands on standard input, unless the user may change nothing.
func (u User) input(in io.Reader) ([]byte, error) {
	if err := u.mayChange(); err != nil {
		return nil, err
	}
	text, err := io.ReadAll(io.LimitReader(in, LongestInput+1))
	if err == nil && len(text) > LongestInput {
		err = fmt.Errorf("at most %d bytes are taken here", LongestInput)
	}
	return text, err
}

// tell gives the call that writes lines.
func tell(out io.Writer) func(lines []string, err error) error {
	return func(lines []string, err error) error {
		if err == nil && len(lines) > 0 {
			_, err = io.WriteString(out, strings.Join(lines, "\n")+"\n")
		}
		return err
	}
}
