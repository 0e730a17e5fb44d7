// Gitpoold serves the tenants of one pool to unmodified git, over http and ssh, durably. docs/SERVER.md begins its manual.
package main

import (
	"errors"
	"fmt"
	"os"
	"slices"
	"strings"
	"syscall"

	"gitpoold/backups"
	"gitpoold/builds"
	"gitpoold/configfile"
	"gitpoold/journal"
	"gitpoold/poolfile"
	"gitpoold/regular"
	"gitpoold/shards"
	"gitpoold/store"
)

// version and commit are set by the build.
var version, commit = "0", "unknown"

// Statuses with which a run ends.
const (
	statusRefused = 1
	statusUsage   = 2
	statusDamaged = 3
	statusDevice  = 4
)

// command is one subcommand.
type command struct {
	name  string
	words string
	about string
	least int
	most  int
	flags []string
	run   func(line line) error
}

// line is what a run says: its command, the server's folder, which each command names first, the words behind it, and the values of flags.
type line struct {
	name   string
	folder string
	words  []string
	flags  map[string]string
	// logs has the values of `--log`, which may stand several times.
	logs []string
}

// logFlags are those of a journal in Redis, and switches the flags that have no value.
var (
	logFlags    = []string{"--log", "--log-wait", "--replicas", "--log-unsynced"}
	followFlags = []string{"--follow", "--leader", "--take-over"}
	switches    = map[string]bool{"--log-unsynced": true, "--follow": true, "--allow-file": true, "--deletions": true}
)

// commands are those that change a folder or a running server, in the order of `--help`.
func commands() []command { return append(listCommands(), serverCommands()...) }

// listCommands make a folder, and change who may do what in it.
func listCommands() []command {
	return []command{
		{"init", "DIR [--shards N] [--log ADDRESS ..]", "make a folder for a server, with --shards or several logs for its tenants in several pools, " +
			"and with --log a log in Redis for the journal of each", 1, 1, append([]string{"--program", "--shards"}, logFlags...), runInit},
		{"user", "DIR USER [--key FILE | --remove-key FINGERPRINT]", "give a user a password, read from standard input, or the keys of a file, " +
			"or take a key away", 2, 2, []string{"--key", "--remove-key", "--socket"}, runUser},
		{"group", "DIR [add|remove @GROUP MEMBER]", "list the groups, or put a user or another group into a group, or take it out; " +
			"a group may have grants", 1, 4, []string{"--socket"}, runGroup},
		{"token", "DIR [add USER PATTERN r|rw END | remove TOKEN]", "list the tokens, or make one, which may do less than its user, " +
			"until a day such as 2027-01-31 or for a time such as 90d; its name and secret are shown once", 1, 6, []string{"--socket"}, runToken},
		{"users", "DIR", "list the users with their keys, grants and blocks", 1, 1, nil, runUsers},
		{"grant", "DIR USER PATTERN r|rw", "let a user, or '*' for everyone, read or also write tenants: acme/site, 'acme/*' or '*'", 4, 4,
			[]string{"--socket"}, runGrant},
		{"revoke", "DIR USER [PATTERN]", "take a grant back; without a pattern all grants, the password and the keys", 2, 3,
			[]string{"--socket"}, runRevoke},
	}
}

// serverCommands serve, and keep a server well.
func serverCommands() []command {
	return []command{
		{"serve", "DIR [--http ADDRESS] [--ssh ADDRESS] [--socket PATH] [--certificate FILE --certificate-key FILE | " +
			"--acme NAMES [--acme-email ADDRESS] [--acme-directory URL]] [--redirect ADDRESS] [--log ADDRESS .. [--log-wait TIME] [--replicas N] [--log-unsynced] [--follow [--leader URL] [--take-over TIME]]] [--pool-copy PATH]",
			"serve until SIGTERM; with --follow as a replica of the server that writes the logs: it answers what only reads, and with --take-over " +
				"takes the logs over when that server has been silent for so long", 1, 1,
			append(append(append([]string{"--http", "--ssh", "--socket", "--program", "--pool-copy"}, tlsFlags...), logFlags...),
				followFlags...), runServe},
		{"status", "DIR", "tell how the running server stands", 1, 1, []string{"--socket"}, runCall},
		{"save", "DIR", "save the pool file now", 1, 1, []string{"--socket"}, runCall},
		{"backup", "DIR TO [--keep N]", "keep what the folder has at one moment in a folder of backups, of which the last N stay, or 1; " +
			"the server may run", 2, 2, []string{"--keep", "--socket"}, runBackup},
		{"restore", "FROM DIR [--moment NAME]", "make a server's folder of the newest backup in a folder of backups, or of another one", 2, 2,
			[]string{"--moment"}, runRestore},
		{"tenants", "DIR", "list the tenants of the running server, with their sizes", 1, 1, []string{"--socket"}, runCall},
		{"copy", "DIR FROM TO", "copy a tenant to an empty one", 3, 3, []string{"--socket"}, runCall},
		{"remove", "DIR TENANT", "remove a tenant", 2, 2, []string{"--socket"}, runCall},
		{"compact", "DIR TENANT", "drop what no ref of a tenant reaches", 2, 2, []string{"--socket"}, runCall},
		{"head", "DIR TENANT BRANCH", "let HEAD name another branch: what a clone checks out, and pages show first", 3, 3, []string{"--socket"}, runCall},
		{"move", "DIR TENANT SHARD", "move a tenant to another shard", 3, 3, []string{"--socket"}, runCall},
		{"limits", "DIR [NAME VALUE | quota TENANT VALUE | user-bytes|user-tenants|daily-bytes|daily-child USER VALUE]",
			"list the limits, or set one; the value `default` unsets it", 1, 4, []string{"--socket"}, runLimits},
		{"block", "DIR [user|tenant NAME [WHY]]", "refuse everything to a user, or pushes and streams to a tenant, and tell them why; without a name list " +
			"what is blocked", 1, 4, []string{"--socket"}, runBlock},
		{"unblock", "DIR user|tenant NAME", "take a block back", 3, 3, []string{"--socket"}, runUnblock},
		{"hooks", "DIR [add|remove PATTERN [pre-receive|update] WHERE]", "list the hooks, or let a program or an http address be told of pushes, " +
			"or let a program judge them before they change anything", 1, 5, []string{"--socket"}, runHooks},
		{"lfs", "DIR [PATTERN on|off]", "list the tenants that keep files of Git LFS, or let some, or do so no more", 1, 3, []string{"--socket"}, runLFS},
		protectCommand, describeCommand, webhookCommand, mirrorCommand, pushMirrorCommand,
		{"audit", "DIR", "print what operators changed, and users of their own accounts: who, when and from where", 1, 1, nil, runAudit},
	}
}

func main() {
	os.Exit(run(os.Args[1:]))
}

func run(words []string) int {
	if len(words) == 0 || words[0] == "--help" || words[0] == "-h" || words[0] == "help" {
		fmt.Print(help())
		return 0
	}
	if words[0] == "--version" || words[0] == "-V" {
		fmt.Print(versions())
		return 0
	}
	for _, it := range commands() {
		if it.name == words[0] {
			return it.start(words[1:])
		}
	}
	fmt.Fprintf(os.Stderr, "gitpoold: there is no command `%s`; `gitpoold --help` lists them\n", words[0])
	return statusUsage
}

// versions tells what this server is, and how the program was made that it runs. The server itself is not proved.
func versions() string {
	text := fmt.Sprintf("gitpoold %s\ncommit: %s\nproved: no\n", version, commit)
	found, err := program("")
	if err != nil {
		return text + "gitpool: not found\n"
	}
	text += "gitpool: " + found + "\n"
	lines, err := builds.Of(found)
	if err != nil {
		return text + fmt.Sprintf("gitpool version: unknown, for %v\n", err)
	}
	for _, it := range lines {
		text += "gitpool " + it + "\n"
	}
	return text
}

func (c command) start(words []string) int {
	found, err := c.parse(words)
	if err != nil {
		fmt.Fprintf(os.Stderr, "gitpoold: %v\nUsage: gitpoold %s %s\n", err, c.name, c.words)
		return statusUsage
	}
	if err := c.run(found); err != nil {
		fmt.Fprintf(os.Stderr, "gitpoold: %v\n", err)
		return statusOf(err)
	}
	return 0
}

func statusOf(err error) int {
	var damaged *journal.Damaged
	var bad *journal.BadLog
	var two *shards.TwoPlaces
	var missing *shards.Missing
	var lost *configfile.Lost
	var notFile *regular.NotFile
	var backup *backups.Damaged
	switch {
	case errors.As(err, &bad) && bad.IsTaken:
		return statusDevice
	case errors.As(err, &damaged), errors.As(err, &bad), errors.As(err, &two), errors.As(err, &missing), errors.As(err, &lost),
		errors.As(err, &notFile), errors.As(err, &backup), errors.Is(err, poolfile.ErrForm), errors.Is(err, store.ErrLoad):
		return statusDamaged
	case errors.Is(err, store.ErrInHand), errors.Is(err, os.ErrNotExist), errors.Is(err, os.ErrPermission), errors.Is(err, syscall.EROFS):
		return statusDevice
	}
	return statusRefused
}

// parse splits words into those that name things and flags with their values, in any order.
func (c command) parse(words []string) (found line, err error) {
	found = line{name: c.name, flags: map[string]string{}}
	for i := 0; i < len(words); i++ {
		if !strings.HasPrefix(words[i], "--") {
			found.words = append(found.words, words[i])
			continue
		}
		name, value, hasValue := strings.Cut(words[i], "=")
		if !slices.Contains(c.flags, name) {
			return found, fmt.Errorf("there is no option `%s`", name)
		}
		if !hasValue && !switches[name] {
			if i++; i == len(words) {
				return found, fmt.Errorf("`%s` has no value", name)
			}
			value = words[i]
		}
		if name == "--log" {
			found.logs = append(found.logs, value)
			continue
		}
		found.flags[name] = value
	}
	if len(found.words) < c.least || len(found.words) > c.most {
		return found, fmt.Errorf("`%s` takes other words", c.name)
	}
	found.folder, found.words = found.words[0], found.words[1:]
	return found, nil
}

func help() string {
	var text strings.Builder
	text.WriteString("Serve the tenants of a pool to git, over http and ssh\n\nUsage: gitpoold COMMAND DIR ..\n\nCommands:\n")
	for _, it := range commands() {
		fmt.Fprintf(&text, "  %s %s\n        %s\n", it.name, it.words, it.about)
	}
	text.WriteString("\nOptions:\n  -h, --help     Print help\n  -V, --version  Print version\n\ndocs/SERVER.md is the manual.\n")
	return text.String()
}
