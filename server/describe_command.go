package main

import (
	"strings"

	"gitpoold/catalogue"
)

var describeCommand = command{"describe", "DIR [TENANT TEXT]",
	"list the descriptions of tenants, or give one a description, which the list of repositories shows; the text '' takes it away", 1, 100,
	[]string{"--socket"}, runDescribe}

// runDescribe lists the descriptions, or changes one.
func runDescribe(l line) error {
	words := l.words
	if len(words) < 2 {
		return printLines(catalogue.Rows(l.folder))
	}
	return change(l, catalogue.FileName, func() error { return catalogue.Describe(l.folder, words[0], strings.Join(words[1:], " ")) })
}
