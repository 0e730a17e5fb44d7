package mirrors

import (
	"bytes"
	"context"
	"errors"
	"fmt"
	"io/fs"
	"os"
	"path/filepath"
	"strings"
	"time"

	"gitpoold/gitrun"
)

// repository is the bare repository of a mirror, in which git works.
type repository struct {
	path   string
	folder string // of the server
	url    string
	scheme string
	// mostBytes is how much room it may take, and mayGrow refuses what would take the journal's.
	mostBytes int64
	mayGrow   func() error
	// memory is how much each process of git may have.
	memory  int64
	silence time.Duration
	// every is how often a run is looked at.
	every time.Duration
}

// What stops git.
var (
	errLarge  = errors.New("the repository is larger than `mirror-bytes` allows")
	errLate   = errors.New("it took longer than `mirror` allows")
	errOutput = errors.New("the other host names more refs than a tenant may have")
)

// settings are those with which git works in the repository. Nothing of the system's and the user's is read.
const settings = `[core]
	repositoryformatversion = 0
	bare = true
	hooksPath = /dev/null
	packedGitWindowSize = 16m
	packedGitLimit = 128m
	bigFileThreshold = 16m
[protocol]
	allow = never
[http]
	followRedirects = false
	lowSpeedLimit = 1000
	lowSpeedTime = 60
[fetch]
	unpackLimit = 1
	recurseSubmodules = false
	showForcedUpdates = false
[gc]
	auto = 0
[maintenance]
	auto = false
[pack]
	threads = 1
	windowMemory = 64m
	deltaCacheSize = 32m
[credential]
	helper =
`

// prepare makes the repository, or puts in order what a run that was killed has left.
func (r repository) prepare(ctx context.Context, m Mirror) error {
	if _, err := os.Stat(filepath.Join(r.path, "HEAD")); err != nil {
		if err := os.RemoveAll(r.path); err != nil {
			return err
		}
		if err := os.MkdirAll(r.path, 0o700); err != nil {
			return err
		}
		if err := r.git(ctx, command{words: []string{"init", "-q", "--bare", "--template=", "."}}); err != nil {
			return err
		}
	}
	_ = filepath.WalkDir(r.path, func(path string, it fs.DirEntry, err error) error {
		if err == nil && (strings.HasSuffix(path, ".lock") || strings.HasPrefix(it.Name(), "tmp_")) {
			_ = os.RemoveAll(path)
		}
		return nil
	})
	text := settings
	if m.User != "" {
		secrets := filepath.Join(r.path, "credentials")
		if err := os.WriteFile(secrets, []byte(credentials(m)), 0o600); err != nil {
			return err
		}
		text += fmt.Sprintf("\thelper = \"store --file=%s\"\n", quoted(shell(secrets)))
	}
	return os.WriteFile(filepath.Join(r.path, "config"), []byte(text), 0o600)
}

// quoted is a text between quotes of git-config(1).
func quoted(text string) string { return strings.NewReplacer(`\`, `\\`, `"`, `\"`).Replace(text) }

// shell is a word of a shell.
func shell(text string) string { return "'" + strings.ReplaceAll(text, "'", `'\''`) + "'" }

// command is one run of git. Local says that it speaks through the socket that it has as its first further file, and no other way.
type command struct {
	words []string
	local *os.File
	out   *bytes.Buffer
	most  int // of its output
}

// git runs one command in the repository, with low priority, until it ends or a bound is passed. Its group is killed then.
func (r repository) git(ctx context.Context, c command) error {
	out := &head{most: c.most}
	err := gitrun.Command{Words: c.words, Environment: r.environment(c.local != nil), Folder: r.path, Memory: r.memory, FileBytes: r.mostBytes,
		Silence: r.silence, Every: r.every, Judge: r.judge, Out: out, Local: c.local}.Run(ctx)
	if c.out != nil {
		c.out.Write(out.kept.Bytes())
	}
	if errors.Is(err, context.DeadlineExceeded) {
		err = errLate
	}
	return err
}

func (r repository) judge() error {
	if r.size() > r.mostBytes {
		return errLarge
	}
	return r.mayGrow()
}

// leastFile is how much room a file takes at least.
const leastFile = 4096

// size is how much room the repository takes.
func (r repository) size() (bytes int64) {
	_ = filepath.WalkDir(r.path, func(_ string, it fs.DirEntry, err error) error {
		if err != nil {
			return nil
		}
		if info, err := it.Info(); err == nil {
			bytes += (info.Size() + leastFile - 1) / leastFile * leastFile
		}
		return nil
	})
	return bytes
}

// passed are the variables of the server's environment that git gets beside the usual ones.
var passed = strings.Fields("http_proxy https_proxy HTTPS_PROXY no_proxy NO_PROXY all_proxy ALL_PROXY GIT_SSL_CAINFO " +
	"GIT_SSL_CAPATH SSL_CERT_FILE SSL_CERT_DIR SSH_AUTH_SOCK")

// environment lets git ask nobody, and take no other way than that of the URL.
func (r repository) environment(isLocal bool) []string {
	way := r.scheme
	if isLocal {
		way = "fd"
	}
	return append(gitrun.Environment(r.path, passed...), "GIT_ALLOW_PROTOCOL="+way, "GIT_SSH_VARIANT=ssh", "GIT_SSH_COMMAND="+r.ssh())
}

// ssh is the command for URLs of ssh. It asks nobody, takes no key of a host that it does not know, and ends with its git. The folder of the
// server may have a key of its own for it, and the keys of hosts.
func (r repository) ssh() string {
	command := "setpriv --pdeathsig KILL ssh -oBatchMode=yes -oStrictHostKeyChecking=yes -oConnectTimeout=30" +
		" -oServerAliveInterval=30 -oServerAliveCountMax=4 -oControlMaster=no -oControlPath=none"
	if key := filepath.Join(r.folder, "mirror_key"); isThere(key) {
		command += " -oIdentitiesOnly=yes -i " + shell(key)
	}
	if hosts := filepath.Join(r.folder, "mirror_known_hosts"); isThere(hosts) {
		command += " -oUserKnownHostsFile=" + shell(hosts)
	}
	return command
}

func isThere(path string) bool {
	_, err := os.Stat(path)
	return err == nil
}

// head keeps the first of what git prints. Where more comes than it may keep, git is stopped.
type head struct {
	most int
	kept bytes.Buffer
}

func (h *head) Write(text []byte) (int, error) {
	if h.kept.Len()+len(text) > h.most {
		return 0, errOutput
	}
	return h.kept.Write(text)
}
