package main

import (
	"errors"

	"gitpoold/protect"
)

var protectCommand = command{"protect", "DIR [TENANT | add PATTERN REFS [RULE ..] | remove PATTERN REFS]",
	"list the refs that are protected, all or those of a tenant; or protect refs by the rules no-delete, no-force and only=USER,@GROUP, " +
		"where none is no-delete no-force", 1, 7, []string{"--socket"}, runProtect}

// runProtect lists the refs that are protected, protects some, or does so no more.
func runProtect(l line) error {
	words := l.words
	switch {
	case len(words) > 2 && words[0] == "add":
		return change(l, protect.FileName, func() error { return protect.Add(l.folder, words[1], words[2], words[3:]) })
	case len(words) == 3 && words[0] == "remove":
		return change(l, protect.FileName, func() error { return protect.Remove(l.folder, words[1], words[2]) })
	case len(words) < 2:
		return printLines(protect.Rows(l.folder, append(words, "")[0]))
	}
	return errors.New("say `add PATTERN REFS [no-delete] [no-force] [only=USER,@GROUP]` or `remove PATTERN REFS`")
}
