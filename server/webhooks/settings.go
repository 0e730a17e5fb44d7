package webhooks

import (
	"fmt"
	"net/netip"
	"net/url"
	"path/filepath"
	"strings"

	"gitpoold/configfile"
)

// listName is the operator's file. It has lines `secret ADDRESS SECRET` and `allow NETWORK`.
const listName = "webhooks"

// Comment is what the file begins with.
const Comment = "# secret ADDRESS SECRET, or allow NETWORK: `gitpoold webhook` changes them."

// settings are the secrets of addresses, and the networks inside which addresses may be.
type settings struct {
	secrets  map[string]string
	networks []netip.Prefix
}

func readSettings(path string) (s settings, err error) {
	s.secrets = map[string]string{}
	lines, err := configfile.Read(path)
	for _, words := range lines {
		if err := s.take(words); err != nil {
			return s, fmt.Errorf("%s: %w", path, err)
		}
	}
	return s, err
}

// take takes one line. What it says of a line that is wrong has no secret.
func (s *settings) take(words []string) error {
	switch {
	case len(words) == 3 && words[0] == "secret" && IsAddress(words[1]):
		s.secrets[words[1]] = words[2]
		return nil
	case len(words) == 2 && words[0] == "allow":
		network, err := ParseNetwork(words[1])
		s.networks = append(s.networks, network)
		return err
	}
	return fmt.Errorf("`%s ..` is no line secret ADDRESS SECRET, or allow NETWORK", words[0])
}

// ParseNetwork reads an address such as 10.1.2.3, or a network such as 10.0.0.0/8.
func ParseNetwork(text string) (netip.Prefix, error) {
	if address, err := netip.ParseAddr(text); err == nil && address.Zone() == "" {
		address = address.Unmap()
		return netip.PrefixFrom(address, address.BitLen()), nil
	}
	network, err := netip.ParsePrefix(text)
	if err != nil || network.Masked() != network || network.Addr().Is4In6() {
		return network, fmt.Errorf("`%s` is no network, such as 10.0.0.0/8 or 127.0.0.1", text)
	}
	return network, nil
}

// IsAddress tells whether a hook is an address of http, and no program.
func IsAddress(where string) bool {
	address, err := url.Parse(where)
	return err == nil && (address.Scheme == "http" || address.Scheme == "https") && address.Host != ""
}

// Shown is an address as logs have it: neither a password nor what stands after its path.
func Shown(where string) string {
	address, err := url.Parse(where)
	if err != nil || address.Scheme != "http" && address.Scheme != "https" {
		return where
	}
	return (&url.URL{Scheme: address.Scheme, Host: address.Host, Path: address.Path}).String()
}

// ShownLine is a line of words as logs have it, with each address as Shown gives it.
func ShownLine(line string) string {
	words := strings.Split(line, " ")
	for at, it := range words {
		words[at] = Shown(it)
	}
	return strings.Join(words, " ")
}

// What a secret may have: short ones can be guessed, and all of them stand in a line.
const leastSecret, mostSecret = 8, 256

// SetSecret lets what is delivered to an address be signed by a secret; "" takes the secret back.
func SetSecret(folder, address, secret string) error {
	if !IsAddress(address) || strings.ContainsAny(address, " \t\n") {
		return fmt.Errorf("`%s` is no address of http", Shown(address))
	}
	if secret != "" && (len(secret) < leastSecret || len(secret) > mostSecret || !isWord(secret)) {
		return fmt.Errorf("a secret has %d to %d visible characters of ASCII", leastSecret, mostSecret)
	}
	return change(folder, func(words []string) bool { return words[0] == "secret" && words[1] == address }, secret != "",
		"secret "+address+" "+secret)
}

func isWord(text string) bool {
	for _, it := range []byte(text) {
		if it <= ' ' || it > '~' {
			return false
		}
	}
	return true
}

// Allow lets addresses of hooks be inside a network that is not public.
func Allow(folder, network string) error {
	if _, err := ParseNetwork(network); err != nil {
		return err
	}
	return change(folder, func(words []string) bool { return words[0] == "allow" && words[1] == network }, true, "allow "+network)
}

// Deny takes Allow back.
func Deny(folder, network string) error {
	before, err := readSettings(filepath.Join(folder, listName))
	if err != nil {
		return err
	}
	parsed, err := ParseNetwork(network)
	if err != nil {
		return err
	}
	for _, it := range before.networks {
		if it == parsed {
			return change(folder, func(words []string) bool { return isNetwork(words, parsed) }, false, "")
		}
	}
	return fmt.Errorf("%s is not allowed", network)
}

func isNetwork(words []string, wanted netip.Prefix) bool {
	found, err := ParseNetwork(words[1])
	return words[0] == "allow" && err == nil && found == wanted
}

// change takes the lines out that are meant, and puts another one in.
func change(folder string, isMeant func(words []string) bool, hasLine bool, line string) error {
	return configfile.Change(filepath.Join(folder, listName), func(lines []string) (left []string, err error) {
		for _, it := range lines {
			if words := strings.Fields(it); len(words) < 2 || !isMeant(words) {
				left = append(left, it)
			}
		}
		if hasLine {
			left = append(left, line)
		}
		return left, nil
	})
}

// Rows gives the lines of a folder's file, without the secrets.
func Rows(folder string) (rows []string, err error) {
	lines, err := configfile.Read(filepath.Join(folder, listName))
	for _, words := range lines {
		if len(words) == 3 && words[0] == "secret" {
			words[1], words = Shown(words[1]), words[:2]
		}
		rows = append(rows, strings.Join(words, " "))
	}
	return rows, err
}
