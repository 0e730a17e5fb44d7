// Package fsck judges Git's objects by the messages of git-fsck(1), as `git receive-pack` does under receive.fsckObjects of git-config(1).
//
// An object that no message of the level Error is about is taken. `Strict` has the levels of receive.fsckObjects, `Hosting` lets in what old
// histories on public sites have, and `With` gives one message another level, as `receive.fsck.<msg-id>` does. Whether what an object names is
// there is not judged here.
package fsck

import (
	"fmt"
	"strings"
)

// Rules has a level for each message. The zero value is that of Hosting.
type Rules struct{ levels map[ID]Level }

// Named gives the rules of a name: strict, hosting or off.
func Named(name string) (Rules, error) {
	switch name {
	case "strict":
		return Strict(), nil
	case "hosting":
		return Hosting(), nil
	case "off":
		return Off(), nil
	}
	return Rules{}, fmt.Errorf("%s is none of strict, hosting and off", name)
}

// Strict has the levels of receive.fsckObjects: each warning is an error, and what git only mentions is a warning.
func Strict() Rules {
	levels := map[ID]Level{}
	for _, id := range errorIDs {
		levels[id] = Error
	}
	for id, level := range usual {
		if level == Warn {
			level = Error
		}
		levels[id] = level
	}
	return Rules{levels}
}

// Hosting also lets in what many old histories have: odd time zones, no space before a date, padded modes and NULs in messages.
func Hosting() Rules {
	rules := Strict()
	for _, id := range []ID{BadTimezone, MissingSpaceBeforeDate, ZeroPaddedFilemode, NulInCommit} {
		rules.levels[id] = Warn
	}
	return rules
}

// Off refuses nothing that can be kept.
func Off() Rules { return Rules{map[ID]Level{}} }

// With gives one message another level. It refuses an id that git does not have, and a milder level for a message of Fatal, as git does.
func (r Rules) With(id, level string) (Rules, error) {
	wanted, isLevel := levelWords[level]
	if !isLevel {
		return r, fmt.Errorf("%s is no level of a message: error, warn or ignore", level)
	}
	known, isKnown := find(id)
	if !isKnown {
		return r, fmt.Errorf("%s is no message of git-fsck(1)", id)
	}
	if usual[known] == Fatal && wanted != Error {
		return r, fmt.Errorf("the message %s is always an error", known)
	}
	changed := Rules{map[ID]Level{}}
	for it, was := range r.all() {
		changed.levels[it] = was
	}
	changed.levels[known] = wanted
	return changed, nil
}

// find looks an id up without regard to case, as git does.
func find(text string) (ID, bool) {
	for id := range usual {
		if strings.EqualFold(text, string(id)) {
			return id, true
		}
	}
	for _, id := range errorIDs {
		if strings.EqualFold(text, string(id)) {
			return id, true
		}
	}
	return "", false
}

var hosting = Hosting().levels

func (r Rules) all() map[ID]Level {
	if r.levels == nil {
		return hosting
	}
	return r.levels
}

// Fault gives the first finding that is an error, or nil.
func Fault(found []Finding) *Finding {
	for at := range found {
		if found[at].Level >= Error {
			return &found[at]
		}
	}
	return nil
}

// judge collects what is found in one object.
type judge struct {
	rules Rules
	found []Finding
}

// report notes a message, and tells whether it is an error, after which git looks no further at a header.
func (j *judge) report(id ID, format string, values ...any) bool {
	level := j.rules.all()[id]
	if level == Ignore {
		return false
	}
	j.found = append(j.found, Finding{id, level, fmt.Sprintf(format, values...)})
	return level >= Error
}
