package browse

import (
	"bytes"
	"fmt"
	"strconv"
	"strings"
	"time"

	"gitpoold/plumbing"
)

// Person is who wrote, committed or tagged something, and when.
type Person struct {
	Name, Email string
	When        time.Time
}

// Message is a message in two parts: its first paragraph in one line, and what comes after it.
type Message struct{ Subject, Body string }

// Commit is a commit.
type Commit struct {
	Name              plumbing.Name
	Tree              plumbing.Name
	Parents           []plumbing.Name
	Author, Committer Person
	Message
	// Signature is what the commit is signed with, such as OpenPGP, or "". Nobody has verified it.
	Signature string
	// Further are the headers that say none of this.
	Further []Header
}

// Header is a line of an object's header, with those that continue it.
type Header struct{ Word, Value string }

// Tag is an annotated tag.
type Tag struct {
	Name   plumbing.Name
	Target plumbing.Name
	Label  string // the tag's own name
	Tagger Person
	Message
	Signature string // as that of a commit
}

// ReadCommit reads a commit.
func ReadCommit(o plumbing.Object) (*Commit, error) {
	if o.Kind != plumbing.Commit {
		return nil, fmt.Errorf("%v: %w", o.Name, ErrKind)
	}
	head, message := readHeader(o.Contents)
	read := plumbing.ReadHead(o.Contents)
	text := decoder(head["encoding"])
	c := &Commit{Name: o.Name, Tree: read.Tree, Parents: read.Parents, Author: readPerson(head["author"], text),
		Committer: readPerson(head["committer"], text), Message: readMessage(text(message))}
	for _, it := range lastHeaders(o.Contents) {
		if word := string(it.Word); word == "gpgsig" || word == "gpgsig-sha256" {
			c.Signature = signatureOf(it.Value)
		} else {
			c.Further = append(c.Further, Header{word, text([]byte(it.Value))})
		}
	}
	return c, nil
}

// ReadTag reads an annotated tag.
func ReadTag(o plumbing.Object) (*Tag, error) {
	if o.Kind != plumbing.Tag {
		return nil, fmt.Errorf("%v: %w", o.Name, ErrKind)
	}
	head, message := readHeader(o.Contents)
	text := decoder(nil)
	target, _ := plumbing.Tagged(o.Contents)
	t := &Tag{Name: o.Name, Target: target, Label: string(head["tag"]), Tagger: readPerson(head["tagger"], text)}
	if at := signatureAt(string(message)); at >= 0 {
		t.Signature = signatureOf(string(message[at:]))
		message = message[:at]
	}
	t.Message = readMessage(text(message))
	return t, nil
}

// kinds are what signatures begin with.
var kinds = []struct{ front, name string }{
	{"-----BEGIN PGP SIGNATURE-----", "OpenPGP"}, {"-----BEGIN PGP MESSAGE-----", "OpenPGP"}, {"-----BEGIN SSH SIGNATURE-----", "SSH"},
	{"-----BEGIN SIGNED MESSAGE-----", "X.509"}}

func signatureOf(text string) string {
	for _, it := range kinds {
		if strings.HasPrefix(text, it.front) {
			return it.name
		}
	}
	return "an unknown form"
}

// signatureAt is where the signature of a tag begins in its message, the last line that begins one; or -1.
func signatureAt(message string) int {
	found := -1
	for _, it := range kinds {
		at := strings.LastIndex("\n"+message, "\n"+it.front)
		found = max(found, at)
	}
	return found
}

// lastHeaders gives the headers that come after the committer and are no encoding.
func lastHeaders(contents []byte) (all []Header) {
	usual := map[string]bool{"tree": true, "parent": true, "author": true, "committer": true, "encoding": true}
	isUsual := true
	for {
		line, rest, found := bytes.Cut(contents, []byte("\n"))
		if len(line) == 0 || !found {
			return all
		}
		word, value, _ := bytes.Cut(line, []byte(" "))
		switch {
		case len(word) > 0:
			if isUsual = usual[string(word)]; !isUsual {
				all = append(all, Header{string(word), string(value)})
			}
		case !isUsual:
			all[len(all)-1].Value += "\n" + string(value)
		}
		contents = rest
	}
}

// readHeader gives the values of header lines, the last one where several have one word, and the message.
func readHeader(contents []byte) (head map[string][]byte, message []byte) {
	head = map[string][]byte{}
	for {
		line, rest, found := bytes.Cut(contents, []byte("\n"))
		if len(line) == 0 || !found {
			return head, rest
		}
		word, value, _ := bytes.Cut(line, []byte(" "))
		head[string(word)] = value
		contents = rest
	}
}

// decoder gives what reads the text of a commit: as the encoding says that it has, if that is Latin-1, and else as UTF-8.
func decoder(encoding []byte) func([]byte) string {
	switch strings.ToLower(string(encoding)) {
	case "iso-8859-1", "iso8859-1", "latin1", "latin-1":
		return latin
	}
	return func(text []byte) string { return string(text) }
}

func latin(text []byte) string {
	runes := make([]rune, len(text))
	for at, it := range text {
		runes[at] = rune(it)
	}
	return string(runes)
}

// readPerson reads an ident such as `Ada <ada@example.org> 1700000000 +0100`.
func readPerson(ident []byte, text func([]byte) string) Person {
	name, rest, _ := bytes.Cut(ident, []byte("<"))
	email, date, _ := bytes.Cut(rest, []byte("> "))
	digits, zone, _ := bytes.Cut(date, []byte(" "))
	p := Person{Name: strings.TrimSpace(text(name)), Email: text(email)}
	seconds, err := strconv.ParseInt(string(digits), 10, 64)
	if err == nil && 0 <= seconds && seconds < lastSecond {
		p.When = time.Unix(seconds, 0).In(readZone(string(zone)))
	}
	return p
}

// lastSecond is the end of the year 9999.
const lastSecond = 253402300800

// readZone reads hours and minutes from UTC, such as -0330.
func readZone(text string) *time.Location {
	minutes, err := strconv.Atoi(text)
	if err != nil || len(text) != 5 {
		return time.UTC
	}
	return time.FixedZone("", (minutes/100*60+minutes%100)*60)
}

func readMessage(text string) Message {
	text = strings.Trim(text, "\n")
	subject, body, _ := strings.Cut(text, "\n\n")
	return Message{strings.ReplaceAll(strings.TrimSpace(subject), "\n", " "), strings.Trim(body, "\n")}
}
