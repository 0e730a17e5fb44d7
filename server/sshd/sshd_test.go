package sshd

import (
	"bytes"
	"context"
	"crypto/ed25519"
	"crypto/rand"
	"errors"
	"io"
	"net"
	"os"
	"os/exec"
	"path/filepath"
	"testing"

	"golang.org/x/crypto/ssh"

	"gitpoold/access"
	"gitpoold/gateway"
	"gitpoold/limits"
	"gitpoold/logs"
	"gitpoold/metrics"
	"gitpoold/shards"
	"gitpoold/store"
	"gitpoold/tenants"
)

func must(t testing.TB, err error) {
	t.Helper()
	if err != nil {
		t.Fatal(err)
	}
}

// room is a server of a folder, with the users alice, who may do all, and bob, who may read acme/site.
type room struct {
	t       *testing.T
	folder  string
	address string
	pool    *shards.Set
	keys    map[string]ssh.Signer
	stop    func()
}

func newKey(t testing.TB) ssh.Signer {
	_, private, err := ed25519.GenerateKey(rand.Reader)
	must(t, err)
	key, err := ssh.NewSignerFromKey(private)
	must(t, err)
	return key
}

// served starts a server over empty shards.
func served(t *testing.T, count int, limitLines string) *room {
	t.Helper()
	program := os.Getenv("GITPOOL")
	if program == "" {
		t.Skip("GITPOOL names no program")
	}
	r := &room{t: t, folder: t.TempDir(), keys: map[string]ssh.Signer{}}
	must(t, shards.Create(r.folder, program, count, nil))
	must(t, os.WriteFile(filepath.Join(r.folder, "limits"), []byte("drain 200ms\n"+limitLines), 0o600))
	for _, user := range []string{"alice", "bob"} {
		r.keys[user] = newKey(t)
		_, err := access.AddKeys(r.folder, user, ssh.MarshalAuthorizedKey(r.keys[user].PublicKey()))
		must(t, err)
	}
	must(t, access.Grant(r.folder, "alice", "*", "rw"))
	must(t, access.Grant(r.folder, "bob", "acme/site", "r"))
	r.start(program)
	t.Cleanup(func() { r.stop() })
	return r
}

func (r *room) start(program string) {
	log := logs.New(io.Discard, metrics.New())
	bounds, err := limits.Load(r.folder, log.Printf)
	must(r.t, err)
	who, err := access.Load(r.folder, log.Printf)
	must(r.t, err)
	r.pool, err = shards.Open(shards.Config{Store: store.Config{Folder: r.folder, Program: program, Tell: log.Printf}})
	must(r.t, err)
	listener, err := net.Listen("tcp", "127.0.0.1:0")
	must(r.t, err)
	r.address = listener.Addr().String()
	s := &gateway.Gateway{Pool: tenants.New(r.pool, bounds.Quota), Access: who, Limits: bounds, Log: log}
	ctx, stop := context.WithCancel(context.Background())
	ended := make(chan error)
	go func() { ended <- Serve(ctx, bounds.ListenIdle(listener), s, []ssh.Signer{newKey(r.t)}) }()
	r.stop = func() {
		stop()
		must(r.t, <-ended)
		must(r.t, r.pool.Close(context.Background()))
	}
}

// again ends the server and starts it anew.
func (r *room) again() {
	r.t.Helper()
	r.stop()
	r.start(os.Getenv("GITPOOL"))
}

// dial connects a user, and gives the connection beneath too.
func (r *room) dial(user string) (*ssh.Client, net.Conn) {
	r.t.Helper()
	raw, err := net.Dial("tcp", r.address)
	must(r.t, err)
	conn, channels, requests, err := ssh.NewClientConn(raw, r.address, &ssh.ClientConfig{User: user,
		Auth: []ssh.AuthMethod{ssh.PublicKeys(r.keys[user])}, HostKeyCallback: ssh.InsecureIgnoreHostKey()})
	must(r.t, err)
	client := ssh.NewClient(conn, channels, requests)
	r.t.Cleanup(func() { client.Close() })
	return client, raw
}

// running is a command that is at work.
type running struct {
	*ssh.Session
	client *ssh.Client
	in     io.WriteCloser
	out    io.Reader
	raw    net.Conn
	said   bytes.Buffer
}

// begin starts a command of a user.
func (r *room) begin(user, command string) *running {
	r.t.Helper()
	client, raw := r.dial(user)
	session, err := client.NewSession()
	must(r.t, err)
	it := &running{Session: session, client: client, raw: raw}
	it.in, err = session.StdinPipe()
	must(r.t, err)
	it.out, err = session.StdoutPipe()
	must(r.t, err)
	session.Stderr = &it.said
	must(r.t, session.Start(command))
	return it
}

// status waits for the end of a command; -1 where the connection ended before.
func (it *running) status() int {
	var exit *ssh.ExitError
	err := it.Wait()
	it.client.Close()
	switch {
	case err == nil:
		return 0
	case errors.As(err, &exit):
		return exit.ExitStatus()
	}
	return -1
}

// done is what a command came to.
type done struct {
	status    int
	out, said string
}

// run gives a command its input, and waits for its end.
func (r *room) run(user, command string, input []byte) done {
	r.t.Helper()
	it := r.begin(user, command)
	go func() {
		it.in.Write(input)
		it.in.Close()
	}()
	out, _ := io.ReadAll(it.out)
	return done{it.status(), string(out), it.said.String()}
}

// alone carries out a run of the program over a pool file of its own.
func alone(t testing.TB, pool string, input []byte, words ...string) done {
	t.Helper()
	command := exec.Command(os.Getenv("GITPOOL"), append(words, "--pool", pool)...)
	command.Stdin = bytes.NewReader(input)
	var said bytes.Buffer
	command.Stderr = &said
	out, err := command.Output()
	var exit *exec.ExitError
	if err != nil && !errors.As(err, &exit) {
		t.Fatal(err)
	}
	return done{command.ProcessState.ExitCode(), string(out), said.String()}
}
