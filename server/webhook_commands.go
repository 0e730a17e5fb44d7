package main

import (
	"errors"
	"os"

	"gitpoold/webhooks"
)

// webhookCommand is about the addresses of hooks.
var webhookCommand = command{"webhook", "DIR [secret ADDRESS | allow NETWORK | deny NETWORK | test ADDRESS | log]",
	"list what holds for addresses of hooks; or give one a secret, read from standard input, by which what it is told is signed; or let addresses " +
		"be inside a network that is not public; or tell one an event `ping` now; or print the log of deliveries", 1, 3,
	[]string{"--socket"}, runWebhook}

// runWebhook lists the settings of addresses, or changes one, or shows what became of deliveries.
func runWebhook(l line) error {
	folder, words := l.folder, append(l.words, "", "")
	switch words[0] {
	case "":
		return printLines(webhooks.Rows(folder))
	case "log":
		text, err := webhooks.Log(folder)
		_, _ = os.Stdout.Write(text)
		return err
	}
	if words[1] == "" {
		return errors.New("say `secret ADDRESS`, `allow NETWORK`, `deny NETWORK`, `test ADDRESS` or `log`")
	}
	switch words[0] {
	case "secret":
		return setSecret(l, words[1])
	case "allow":
		return change(l, "hooks", func() error { return webhooks.Allow(folder, words[1]) })
	case "deny":
		return change(l, "hooks", func() error { return webhooks.Deny(folder, words[1]) })
	}
	return runCall(l)
}

// setSecret gives an address a secret. An empty line takes it back.
func setSecret(l line, address string) error {
	secret, err := readPassword()
	if err != nil {
		return err
	}
	return change(l, "hooks", func() error { return webhooks.SetSecret(l.folder, address, secret) })
}
