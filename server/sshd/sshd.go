// Package sshd serves Git over ssh: git-upload-pack and git-receive-pack; the commands import, ask and frames, for clients without a protocol of Git;
// and account, by which users look after their own. It takes no other command.
package sshd

import (
	"context"
	"errors"
	"io"
	"net"
	"sync"
	"sync/atomic"
	"time"

	"golang.org/x/crypto/ssh"

	"gitpoold/gateway"
)

// Most sessions that one connection may have at once: git opens one, and OpenSSH shares a connection among ten.
const mostSessions = 10

// server answers the connections.
type server struct {
	*gateway.Gateway
	running  sync.WaitGroup
	stopping <-chan struct{}
}

// Serve answers connections until ctx is done. Then it takes no more, lets those sessions end that have begun, for a while, and
// returns.
func Serve(ctx context.Context, listener net.Listener, s *gateway.Gateway, hostKeys []ssh.Signer) error {
	it := &server{Gateway: s, stopping: ctx.Done()}
	sessions, stop := context.WithCancel(context.Background())
	defer stop()
	context.AfterFunc(ctx, func() { listener.Close() })
	for {
		c, err := listener.Accept()
		if ctx.Err() != nil {
			return it.drain()
		}
		if err != nil {
			if isPassing(err) {
				time.Sleep(10 * time.Millisecond)
				continue
			}
			return err
		}
		it.running.Add(1)
		go it.connection(sessions, c, hostKeys)
	}
}

// isPassing tells whether the next Accept may go well, as where the process has too many open files for the moment.
func isPassing(err error) bool {
	var network net.Error
	return errors.As(err, &network) && !errors.Is(err, net.ErrClosed)
}

func (s *server) drain() error {
	ended := make(chan struct{})
	go func() {
		s.running.Wait()
		close(ended)
	}()
	select {
	case <-ended:
	case <-time.After(s.Limits.Get().Drain):
	}
	return nil
}

// Where a connection's permissions have its user, and what let the user in: a key, or the hash of a password.
const (
	userKey = "user"
	keyKey  = "key"
	hashKey = "hash"
)

func permissions(user, by, what string) *ssh.Permissions {
	return &ssh.Permissions{Extensions: map[string]string{userKey: user, by: what}}
}

var errDenied = errors.New("denied")

// What a connection is encrypted and checked by: ciphers and codes that are safe with a client that has no strict key exchange, or with an older library
// of ssh that has none. An older library leaves out the ciphers that it does not know.
var (
	ciphers = []string{"aes128-gcm@openssh.com", "aes256-gcm@openssh.com", "aes128-ctr", "aes192-ctr", "aes256-ctr"}
	codes   = []string{"hmac-sha2-256"}
)

func (s *server) config(ctx context.Context, hostKeys []ssh.Signer) *ssh.ServerConfig {
	config := &ssh.ServerConfig{
		Config:        ssh.Config{Ciphers: ciphers, MACs: codes},
		MaxAuthTries:  6,
		ServerVersion: "SSH-2.0-gitpoold",
		PublicKeyCallback: func(c ssh.ConnMetadata, key ssh.PublicKey) (*ssh.Permissions, error) {
			if user, ok := s.Access.Key(c.User(), key); ok {
				return permissions(user, keyKey, string(key.Marshal())), nil
			}
			return nil, errDenied
		},
		PasswordCallback: func(c ssh.ConnMetadata, password []byte) (*ssh.Permissions, error) {
			within, stop := context.WithTimeout(ctx, s.Limits.Get().Handshake)
			defer stop()
			// Where the password changes meanwhile, the older hash is refused later on.
			hash := s.Access.Hash(c.User())
			if s.Access.Password(within, c.User(), string(password), host(c.RemoteAddr())) != nil {
				return nil, errDenied
			}
			return permissions(c.User(), hashKey, hash), nil
		},
	}
	for _, key := range hostKeys {
		config.AddHostKey(key)
	}
	return config
}

func host(address net.Addr) string {
	text, _, err := net.SplitHostPort(address.String())
	if err != nil {
		return address.String()
	}
	return text
}

// connection serves one connection: who it is has to be shown within the time for handshakes.
func (s *server) connection(ctx context.Context, socket net.Conn, hostKeys []ssh.Signer) {
	c := newPace(socket)
	defer s.running.Done()
	defer c.Close()
	timer := time.AfterFunc(s.Limits.Get().Handshake, func() { c.Close() })
	conn, channels, requests, err := ssh.NewServerConn(c, s.config(ctx, hostKeys))
	if !timer.Stop() || err != nil {
		return
	}
	defer conn.Close()
	go ssh.DiscardRequests(requests)
	done := make(chan struct{})
	defer close(done)
	go s.keepAlive(conn, done)
	s.sessions(ctx, conn, c, channels)
}

// sessions serves the channels of a connection, so many at once.
func (s *server) sessions(ctx context.Context, conn *ssh.ServerConn, pace *pace, channels <-chan ssh.NewChannel) {
	var running sync.WaitGroup
	var isToEnd atomic.Bool
	places := make(chan struct{}, mostSessions)
	ctx, stop := context.WithCancel(ctx)
	defer running.Wait()
	defer stop()
	idle := time.AfterFunc(s.Limits.Get().Handshake, func() { conn.Close() })
	defer idle.Stop()
	for asked := range channels {
		channel, requests, leave := s.accept(asked, places, conn.Permissions.Extensions[userKey])
		if channel == nil {
			continue
		}
		idle.Stop()
		pace.open(1)
		go io.Copy(io.Discard, channel.Stderr())
		channel = &patient{&paced{Channel: channel, pace: pace}, s.Limits, func() { conn.Close() }}
		running.Add(1)
		go func() {
			defer running.Done()
			defer pace.open(-1)
			defer leave()
			it := &session{server: s, conn: conn, channel: channel, user: conn.Permissions.Extensions[userKey],
				address: host(conn.RemoteAddr())}
			if it.serve(ctx, requests) {
				isToEnd.Store(true)
			}
			if s.free(places, idle) && isToEnd.Load() {
				conn.Close()
			}
		}()
	}
}

// free gives the place of a session back, and tells whether it was the last one. A connection without sessions ends after a while, whatever else its
// client sends.
func (s *server) free(places chan struct{}, idle *time.Timer) (last bool) {
	if <-places; len(places) > 0 {
		return false
	}
	idle.Reset(s.Limits.Get().Idle)
	if len(places) > 0 {
		idle.Stop()
		return false
	}
	return true
}

// accept takes a channel if it is a session and there is a place for it, and gives the call that counts it no more for its user.
func (s *server) accept(asked ssh.NewChannel, places chan struct{}, user string) (ssh.Channel, <-chan *ssh.Request, func()) {
	if asked.ChannelType() != "session" {
		_ = asked.Reject(ssh.UnknownChannelType, "this server has sessions alone")
		return nil, nil, nil
	}
	leave, err := s.Limits.EnterSession(user)
	if err != nil {
		_ = asked.Reject(ssh.ResourceShortage, err.Error())
		return nil, nil, nil
	}
	select {
	case places <- struct{}{}:
	default:
		leave()
		_ = asked.Reject(ssh.ResourceShortage, "this connection has too many sessions")
		return nil, nil, nil
	}
	channel, requests, err := asked.Accept()
	if err != nil {
		leave()
		<-places
		return nil, nil, nil
	}
	return channel, requests, leave
}
