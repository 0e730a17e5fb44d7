package main

import (
	"bufio"
	"crypto"
	"crypto/ecdsa"
	"crypto/ed25519"
	"crypto/elliptic"
	"crypto/rand"
	"crypto/x509"
	"encoding/pem"
	"errors"
	"fmt"
	"io"
	"os"
	"os/exec"
	"os/user"
	"path/filepath"
	"strconv"
	"strings"

	"golang.org/x/crypto/ssh"

	"gitpoold/access"
	"gitpoold/audit"
	"gitpoold/backups"
	"gitpoold/catalogue"
	"gitpoold/configfile"
	"gitpoold/hooks"
	"gitpoold/lfs"
	"gitpoold/limits"
	"gitpoold/mirrors"
	"gitpoold/operator"
	"gitpoold/protect"
	"gitpoold/regular"
	"gitpoold/shards"
	"gitpoold/store"
	"gitpoold/webhooks"
)

// program finds `gitpool`: as the flag says, as GITPOOL says, beside this program, at the top of the checkout in which this program was
// built, or on the PATH.
func program(flag string) (string, error) {
	for _, named := range []string{flag, os.Getenv("GITPOOL")} {
		if named != "" {
			return exec.LookPath(named)
		}
	}
	own, err := os.Executable()
	if err == nil {
		own, err = filepath.EvalSymlinks(own)
	}
	if err == nil {
		folder := filepath.Dir(own)
		for _, near := range []string{filepath.Join(folder, "gitpool"), filepath.Join(folder, "..", "..", "gitpool")} {
			if found, err := exec.LookPath(near); err == nil {
				return found, nil
			}
		}
	}
	return exec.LookPath("gitpool")
}

// listed are the lists of a folder, and what `init` writes into each.
var listed = []struct{ name, comment string }{
	{"access", "# USER PATTERN RIGHT: the user * is everyone; a pattern is acme/site, acme/* or *; a right is r or rw."},
	{"groups", "# @GROUP MEMBER: a member is a user or another group; `gitpoold group` changes them."},
	{"tokens", "# TOKEN HASH UNTIL RIGHT PATTERN: `gitpoold token` changes them."},
	{"passwords", "# USER HASH: `gitpoold user` changes them."},
	{"keys", "# USER TYPE KEY: `gitpoold user` changes them."},
	{"limits", "# NAME VALUE, quota TENANT VALUE, or daily-bytes USER VALUE: `gitpoold limits` lists and sets them."},
	{"hooks", "# PATTERN WHERE: a program or an http address that is told of pushes, or PATTERN pre-receive|update WHERE: a program that judges " +
		"them; `gitpoold hooks` changes them."},
	{protect.FileName, "# PATTERN REFS RULE..: no-delete, no-force, only=USER,@GROUP; `gitpoold protect` changes them."},
	{lfs.ListName, lfs.Comment},
	{catalogue.FileName, "# TENANT TEXT: `gitpoold describe` changes them."},
	{"webhooks", webhooks.Comment},
	{mirrors.ListName, mirrors.Comment},
	{"owners", "# TENANT USER: the server writes who made each tenant."},
	{"blocked", "# user NAME WHY, or tenant NAME WHY: `gitpoold block` and `gitpoold unblock` change them."},
}

// createLists makes the lists that a folder lacks, unless its server has had them.
func createLists(folder string) error {
	for _, it := range listed {
		path := filepath.Join(folder, it.name)
		if _, err := configfile.Read(path); err != nil {
			return err
		}
		if err := createFile(path, configfile.Text(it.comment)); err != nil {
			return err
		}
	}
	return nil
}

// beginLists lets a server have all lists of its folder.
func beginLists(folder string) error {
	names := make([]string, len(listed))
	for at, it := range listed {
		names[at] = it.name
	}
	return configfile.Begin(folder, names...)
}

// runInit makes what a folder lacks.
func runInit(l line) error {
	found, err := program(l.flags["--program"])
	if err != nil {
		return err
	}
	folder := l.folder
	if err := os.MkdirAll(folder, 0o700); err != nil {
		return err
	}
	if err := isOurs(folder); err != nil {
		return err
	}
	logs, err := logOptions(l)
	if err != nil {
		return err
	}
	count, err := shardCount(l, len(logs))
	if err != nil {
		return err
	}
	if err := shards.Create(folder, found, count, logs); err != nil {
		return err
	}
	if err := createLists(folder); err != nil {
		return err
	}
	for _, it := range hostKeys {
		if err := createHostKey(filepath.Join(folder, it.file), it.make); err != nil {
			return err
		}
	}
	return nil
}

// isOurs asks that a folder belongs to who runs this: its server could not open what another user makes there.
func isOurs(folder string) error {
	id, _, err := regular.Owner(folder)
	if err != nil || id == os.Geteuid() {
		return err
	}
	name := strconv.Itoa(id)
	if found, err := user.LookupId(name); err == nil {
		name = found.Username
	}
	return fmt.Errorf("%s belongs to the user %s, whose server could not open what another user makes there; run this as that user: "+
		"runuser -u %s -- gitpoold init %s", folder, name, name, folder)
}

// hostKeys are the files of the ssh server's keys. Each client takes the one that it knows or prefers: older ones, as of Java, know no ed25519.
var hostKeys = []struct {
	file string
	make func() (crypto.Signer, error)
}{{"host_key", makeEd25519}, {"host_key_ecdsa", makeECDSA}}

func makeEd25519() (crypto.Signer, error) {
	_, private, err := ed25519.GenerateKey(rand.Reader)
	return private, err
}

func makeECDSA() (crypto.Signer, error) { return ecdsa.GenerateKey(elliptic.P256(), rand.Reader) }

// shardCount tells how many shards `init` makes: as many as there are logs, else as `--shards` says, else those that there are.
func shardCount(l line, logs int) (int, error) {
	text, has := l.flags["--shards"]
	if !has && logs > 0 {
		return logs, nil
	}
	if !has {
		return shards.Count(l.folder), nil
	}
	count, err := strconv.Atoi(text)
	if err != nil || count < 1 || count > mostShards {
		return 0, fmt.Errorf("`--shards %s` is no number from 1 to %d", text, mostShards)
	}
	if logs > 0 && logs != count {
		return 0, shards.ErrLogs
	}
	return count, nil
}

// mostShards is how many shards one server may have.
const mostShards = 1000

// createFile makes a file, unless there is one.
func createFile(path, text string) error {
	err := regular.Create(path, text, filepath.Dir(path), 0o600)
	if errors.Is(err, os.ErrExist) {
		return nil
	}
	return err
}

// createHostKey makes a key of the ssh server, unless there is one, and tells its fingerprint.
func createHostKey(path string, make func() (crypto.Signer, error)) error {
	if _, err := os.Stat(path); err == nil {
		return nil
	}
	private, err := make()
	if err != nil {
		return err
	}
	bytes, err := x509.MarshalPKCS8PrivateKey(private)
	if err != nil {
		return err
	}
	key, err := ssh.NewPublicKey(private.Public())
	if err != nil {
		return err
	}
	if err := createFile(path, string(pem.EncodeToMemory(&pem.Block{Type: "PRIVATE KEY", Bytes: bytes}))); err != nil {
		return err
	}
	fmt.Printf("host key %s (%s)\n", ssh.FingerprintSHA256(key), key.Type())
	return createFile(path+".pub", string(ssh.MarshalAuthorizedKey(key)))
}

// change lets a command change a list. The audit has it before, and a running server has read the list afterwards; else it is an error.
func change(l line, list string, do func() error, more ...string) error {
	folder, who := l.folder, audit.Self()
	what := webhooks.ShownLine(strings.Join(append(append([]string{l.name}, l.words...), more...), " "))
	isNoted := false
	configfile.Before = func() (err error) {
		if !isNoted {
			err = audit.Note(folder, who, what, nil)
			isNoted = err == nil
		}
		return err
	}
	err := do()
	if err == nil {
		return operator.Confirm(folder, socket(l), list, what)
	}
	if isNoted {
		if unwritten := audit.Note(folder, who, what, err); unwritten != nil {
			fmt.Fprintf(os.Stderr, "gitpoold: the audit cannot be written: %v\n", unwritten)
		}
	}
	return err
}

// runUser gives a user a password or keys, or takes a key away.
func runUser(l line) error {
	user := l.words[0]
	if wanted, has := l.flags["--remove-key"]; has {
		return change(l, "access", func() error { return access.RemoveKey(l.folder, user, wanted) }, "without", wanted)
	}
	if path, has := l.flags["--key"]; has {
		text, err := os.ReadFile(path)
		if err != nil {
			return err
		}
		return change(l, "access", func() error {
			_, err := access.AddKeys(l.folder, user, text)
			return err
		}, access.Fingerprints(text)...)
	}
	password, err := readPassword()
	if err != nil {
		return err
	}
	return change(l, "access", func() error { return access.SetPassword(l.folder, user, password) }, "password")
}

// readPassword reads a line from standard input; from a terminal without showing it.
func readPassword() (string, error) {
	info, err := os.Stdin.Stat()
	if err == nil && info.Mode()&os.ModeCharDevice != 0 {
		fmt.Fprint(os.Stderr, "Password: ")
		defer fmt.Fprintln(os.Stderr)
		if stty("-echo") == nil {
			defer func() { _ = stty("echo") }()
		}
	}
	text, err := bufio.NewReader(os.Stdin).ReadString('\n')
	if err != nil && err != io.EOF {
		return "", err
	}
	return strings.TrimRight(text, "\r\n"), nil
}

func stty(word string) error {
	command := exec.Command("stty", word)
	command.Stdin = os.Stdin
	return command.Run()
}

// runGrant lets a user do something. One who has no password and no key may be a name that was mistyped.
func runGrant(l line) error {
	user, pattern, right := l.words[0], l.words[1], l.words[2]
	if err := access.CheckGrant(user, pattern, right); err != nil {
		return err
	}
	isKnown, err := access.IsKnown(l.folder, user)
	if err == nil && !isKnown {
		err = fmt.Errorf("there is no user or group %s; `gitpoold user` and `gitpoold group` make them", user)
	}
	if err != nil {
		return err
	}
	return change(l, "access", func() error { return access.Grant(l.folder, user, pattern, right) })
}

func runRevoke(l line) error {
	words := append(l.words, "")
	return change(l, "access", func() error { return access.Revoke(l.folder, words[0], words[1]) })
}

// runBlock blocks a user or a tenant, or lists the blocks.
func runBlock(l line) error {
	words := append(l.words, "")
	if len(words) >= 3 {
		return change(l, "access", func() error { return access.Block(l.folder, words[0], words[1], words[2]) })
	}
	if len(words) == 2 {
		return errors.New("say `user NAME` or `tenant NAME`")
	}
	return printLines(access.Blocks(l.folder))
}

func runUnblock(l line) error {
	return change(l, "access", func() error { return access.Unblock(l.folder, l.words[0], l.words[1]) })
}

// runGroup lists the groups, or changes one.
func runGroup(l line) error {
	words := l.words
	switch {
	case len(words) == 0:
		return printLines(access.Members(l.folder))
	case len(words) == 3 && words[0] == "add":
		return change(l, "access", func() error { return addMember(l.folder, words[1], words[2]) })
	case len(words) == 3 && words[0] == "remove":
		return change(l, "access", func() error { return access.RemoveMember(l.folder, words[1], words[2]) })
	}
	return errors.New("say `add @GROUP MEMBER` or `remove @GROUP MEMBER`")
}

// addMember puts somebody into a group who is known.
func addMember(folder, group, member string) error {
	isKnown, err := access.IsKnown(folder, member)
	if err == nil && !isKnown && access.ValidUser(member) {
		err = fmt.Errorf("there is no user %s; `gitpoold user` makes one", member)
	}
	if err != nil {
		return err
	}
	return access.AddMember(folder, group, member)
}

// runToken lists the tokens, makes one, or takes one away.
func runToken(l line) error {
	words := l.words
	switch {
	case len(words) == 0:
		return printLines(access.Tokens(l.folder))
	case len(words) == 5 && words[0] == "add":
		return addToken(l, words[1], words[2], words[3], words[4])
	case len(words) == 2 && words[0] == "remove":
		return change(l, "access", func() error { return access.RemoveToken(l.folder, words[1]) })
	}
	return errors.New("say `add USER PATTERN r|rw END` or `remove TOKEN`")
}

// addToken makes a token, and shows its secret, which is not to be had again.
func addToken(l line, user, pattern, right, end string) error {
	until, err := access.ParseEnd(end)
	if err != nil {
		return err
	}
	isKnown, err := access.IsKnown(l.folder, user)
	if err == nil && (!isKnown || !access.ValidUser(user)) {
		err = fmt.Errorf("there is no user %s; `gitpoold user` makes one", user)
	}
	if err != nil {
		return err
	}
	login, secret, err := access.NewToken(user)
	if err != nil {
		return err
	}
	err = change(l, "access", func() error { return access.AddToken(l.folder, login, secret, pattern, right, until) }, login)
	if err == nil {
		fmt.Printf("%s %s\n", login, secret)
	}
	return err
}

// runUsers lists the users.
func runUsers(l line) error { return printLines(access.Users(l.folder)) }

func printLines(all []string, err error) error {
	for _, it := range all {
		fmt.Println(it)
	}
	return err
}

// runAudit prints what operators changed.
func runAudit(l line) error { return audit.Print(l.folder, os.Stdout) }

// runLimits lists the limits, or sets one.
func runLimits(l line) error {
	path := filepath.Join(l.folder, "limits")
	words := l.words
	if len(words) == 1 {
		return fmt.Errorf("`%s` has no value", words[0])
	}
	if len(words) > 1 {
		return change(l, "limits", func() error { return limits.Set(path, words...) })
	}
	rows, err := limits.Rows(path)
	for _, row := range rows {
		about := row.About
		if row.Default != "" {
			about += " (default " + row.Default + ")"
		}
		fmt.Printf("%-24s %-8s %s\n", row.Name, row.Value, about)
	}
	return err
}

// runHooks lists the hooks, or changes them.
func runHooks(l line) error {
	words := l.words
	switch {
	case len(words) > 2 && words[0] == "add":
		return change(l, "hooks", func() error { return hooks.Add(l.folder, words[1:]...) })
	case len(words) > 2 && words[0] == "remove":
		return change(l, "hooks", func() error { return hooks.Remove(l.folder, words[1:]...) })
	case len(words) > 0:
		return errors.New("say `add PATTERN [pre-receive|update] WHERE` or `remove PATTERN [pre-receive|update] WHERE`")
	}
	return printLines(hooks.Rows(l.folder))
}

// runLFS lists the tenants that keep files of Git LFS, or switches that on or off for some.
func runLFS(l line) error {
	words := l.words
	switch {
	case len(words) == 0:
		return printLines(lfs.Rows(l.folder))
	case len(words) == 2 && (words[1] == "on" || words[1] == "off"):
		return change(l, lfs.ListName, func() error { return lfs.Switch(l.folder, words[0], words[1] == "on") })
	}
	return errors.New("say `TENANT on` or `TENANT off`")
}

// runBackup keeps what a folder has in a folder of backups, as of a moment while its server runs, or as it is while none does.
func runBackup(l line) error {
	folder, to, keep := l.folder, l.words[0], 1
	if text, has := l.flags["--keep"]; has {
		var err error
		if keep, err = strconv.Atoi(text); err != nil || keep < 1 {
			return fmt.Errorf("`--keep %s` is no number above 0", text)
		}
	}
	if backups.Below(to, folder) || backups.Below(folder, to) {
		return errors.New("backups stand beside the server's folder, and not in it")
	}
	source, end, err := operator.Moment(socket(l))
	if errors.Is(err, operator.ErrNoServer) {
		source = folder
		end, err = holdAll(folder)
	}
	if err != nil {
		return err
	}
	defer end()
	name, err := backups.Make(source, to, keep)
	if err == nil {
		fmt.Println(name)
	}
	return err
}

// holdAll keeps servers from a folder, and other commands from its lists, until the call that it gives.
func holdAll(folder string) (release func(), err error) {
	held, err := store.Hold(folder)
	if err != nil {
		return nil, err
	}
	unlock, err := configfile.Lock(folder)
	if err != nil {
		held()
		return nil, err
	}
	return func() { unlock(); held() }, nil
}

// runRestore makes a folder of a backup.
func runRestore(l line) error {
	name, err := backups.Restore(l.folder, l.flags["--moment"], l.words[0])
	if err == nil {
		fmt.Println(name)
	}
	return err
}

// runCall sends a command to the running server.
func runCall(l line) error {
	text, err := operator.Call(socket(l), append([]string{l.name}, l.words...)...)
	if errors.Is(err, operator.ErrNoServer) {
		return fmt.Errorf("no server runs in %s; start one with `gitpoold serve`", l.folder)
	}
	fmt.Print(text)
	return err
}

// socket is the path of the folder's socket.
func socket(l line) string {
	if path := l.flags["--socket"]; path != "" {
		return path
	}
	return filepath.Join(l.folder, "socket")
}
