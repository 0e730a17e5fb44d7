package main

import (
	"context"
	"crypto/tls"
	"errors"
	"fmt"
	"net"
	"os"
	"os/signal"
	"path/filepath"
	"runtime"
	"syscall"
	"time"

	"golang.org/x/crypto/ssh"
	"golang.org/x/sync/errgroup"

	"gitpoold/access"
	"gitpoold/catalogue"
	"gitpoold/collector"
	"gitpoold/dailyquota"
	"gitpoold/gateway"
	"gitpoold/highlight"
	"gitpoold/hooks"
	"gitpoold/httpd"
	"gitpoold/lfs"
	"gitpoold/limits"
	"gitpoold/logs"
	"gitpoold/markdown"
	"gitpoold/metrics"
	"gitpoold/mirrors"
	"gitpoold/notify"
	"gitpoold/operator"
	"gitpoold/owners"
	"gitpoold/packcache"
	"gitpoold/protect"
	"gitpoold/quarantine"
	"gitpoold/regular"
	"gitpoold/shards"
	"gitpoold/sshd"
	"gitpoold/store"
	"gitpoold/tenants"
)

// server is what a run of `serve` has open.
type server struct {
	line     line
	store    *shards.Set
	gateway  *gateway.Gateway
	operator *operator.Server
	// mirrors are the same as those of the gateway.
	mirrors *mirrors.Keeper
	// These are of https.
	secured   *secured
	httpsPort int
}

// runServe serves until SIGTERM or SIGINT: then no connection is taken any more, requests that have begun end, and the pool is saved. A
// second signal ends the run at once, and the journal has what is not saved. So does a first one while the server starts: it has taken nothing.
func runServe(l line) error {
	syscall.Umask(0o077)
	moreRunners()
	collector.Begin(spareBytes)
	// A file that may not grow is answered like a full disk, by this program and by the child.
	signal.Ignore(syscall.SIGXFSZ)
	signals := make(chan os.Signal, 2)
	signal.Notify(signals, syscall.SIGTERM, syscall.SIGINT)
	ctx, stop := context.WithCancel(context.Background())
	defer stop()
	log, serves := logs.New(os.Stderr, metrics.New()), make(chan struct{})
	go stopAt(signals, serves, stop, log)
	tellSystem(log, notify.Status("the pool file is loaded, and the journal carried out"))
	s, err := open(l)
	if err != nil {
		return err
	}
	ways, err := s.listen()
	if err != nil {
		s.store.Close(ctx)
		return err
	}
	close(serves)
	failed := s.serve(ctx, ways)
	if err := s.store.Close(context.Background()); err != nil {
		s.gateway.Log.Printf("the pool is not saved: %v; the journal has all of it", err)
	}
	s.gateway.Hooks.Close()
	s.gateway.Daily.Save()
	s.gateway.Catalogue.Save()
	s.gateway.Log.Printf("the server has ended")
	return failed
}

// stopAt ends the run at the first signal where the server does not serve yet, else at the second one.
func stopAt(signals <-chan os.Signal, serves <-chan struct{}, stop func(), log *logs.Log) {
	it := <-signals
	select {
	case <-serves:
	default:
		log.Printf("%v: the server ends before it has started; the pool file and the journal have all that was told", it)
		os.Exit(0)
	}
	log.Printf("%v: no connection is taken any more; what has begun ends, and the pool is saved", it)
	tellSystem(log, notify.Stopping, notify.Status("what has begun ends, and the pool is saved"))
	stop()
	<-signals
	os.Exit(0)
}

// tellSystem tells systemd how the server stands.
func tellSystem(log *logs.Log, lines ...string) {
	if err := notify.Tell(lines...); err != nil {
		log.Printf("systemd cannot be told: %v", err)
	}
}

// runnersByCore is how many goroutines may run at once, for each core.
const runnersByCore = 3

// moreRunners lets more goroutines run at once than there are cores, unless the environment says how many. Go looks for what has arrived when
// a runner is free, and packers may keep as many busy as there are cores; then short questions would wait up to ten milliseconds.
func moreRunners() {
	if os.Getenv("GOMAXPROCS") == "" {
		runtime.GOMAXPROCS(runnersByCore * runtime.NumCPU())
	}
}

// spareBytes is by how much the heap may grow before it is collected.
const spareBytes = 64 << 20

// open reads the folder and starts the child.
func open(l line) (*server, error) {
	folder := l.folder
	m := metrics.New()
	log := logs.New(os.Stderr, m)
	found, err := program(l.flags["--program"])
	if err != nil {
		return nil, err
	}
	if err := beginLists(folder); err != nil {
		return nil, err
	}
	bounds, err := limits.Load(folder, log.Printf)
	if err != nil {
		return nil, err
	}
	s, err := readLists(folder, bounds, log, m)
	if err != nil {
		return nil, err
	}
	pool, err := openShards(l, store.Config{Folder: folder, Program: found, ChildMemory: bounds.Get().ChildMemory,
		SecondChild: func() int64 { return bounds.Fresh().SecondChild }, Copy: l.flags["--pool-copy"], Stop: stopAtOnce, Tell: log.Printf})
	if err != nil {
		return nil, err
	}
	serving, err := serverOf(l, pool, s)
	if err != nil {
		pool.Close(context.Background())
	}
	return serving, err
}

// serverOf gives a gateway its tenants, which are those of a pool.
func serverOf(l line, pool *shards.Set, s *gateway.Gateway) (*server, error) {
	files, err := openFiles(pool, s)
	if err != nil {
		return nil, err
	}
	made, err := owners.Open(s.Folder, s.Limits.Owned, func(tenant string) int64 { return pool.Bytes(tenant) + files.Bytes(tenant) })
	if err != nil {
		return nil, err
	}
	all := tenants.New(pool, s.Limits.Quota)
	all.Bound(made)
	all.Beside(files.Bytes)
	s.Pool, s.Owners, s.LFS, s.Elsewhere = all, made, files, pool.Follows
	s.Daily = dailyquota.Open(filepath.Join(s.Folder, "usage"), s.Limits.Daily, s.Log.Printf)
	mirrored, err := mirrors.Open(s)
	if err != nil {
		return nil, err
	}
	s.Mirrors = mirrored
	if s.Packs, err = packsOf(s); err != nil {
		return nil, err
	}
	socket := operator.New(s, pool)
	socket.Measure()
	return &server{line: l, store: pool, gateway: s, operator: socket, mirrors: mirrored}, nil
}

// openFiles takes up the large files of tenants. A server that follows another one may not know yet what its tenants have.
func openFiles(pool *shards.Set, s *gateway.Gateway) (*lfs.Store, error) {
	has := pool.Has
	if pool.IsReplica() {
		has = nil
	}
	return lfs.Open(s.Folder, has, s.Log.Printf)
}

// packsOf keeps packs for clones of a gateway's tenants, but of those that the operator has blocked, and none while another server takes the pushes.
func packsOf(s *gateway.Gateway) (*packcache.Cache, error) {
	return packcache.New(packcache.Config{Folder: filepath.Join(s.Work, "packs"), Tell: s.Log.Printf, Metrics: s.Metrics,
		Most: func() int64 { return s.Limits.Get().PackCache },
		MayGrow: func() error {
			if s.Limits.MayGrow(s.Work) != nil {
				return packcache.ErrDisk
			}
			return nil
		},
		IsOff: func(tenant string) bool {
			return s.Elsewhere() != nil || s.Access.Blocked("", tenant, access.Write) != nil
		}})
}

// readLists gives a gateway with what the lists of its folder say, and without its tenants.
func readLists(folder string, bounds *limits.Limits, log *logs.Log, m *metrics.Metrics) (*gateway.Gateway, error) {
	who, err := access.Load(folder, log.Printf)
	if err != nil {
		return nil, err
	}
	told, err := hooks.Load(folder, func() time.Duration { return bounds.Get().Hook }, log.Printf, m)
	if err != nil {
		return nil, err
	}
	kept, err := protect.Load(folder, log.Printf)
	if err != nil {
		return nil, err
	}
	work := filepath.Join(folder, "work")
	said, err := catalogue.Load(folder, log.Printf)
	if err != nil {
		return nil, err
	}
	views, err := quarantine.New(work, func() error { return bounds.MayGrow(work) })
	return &gateway.Gateway{Access: who, Limits: bounds, Log: log, Metrics: m, Hooks: told, Protected: kept, Catalogue: said, Views: views,
		Version: version, Folder: folder, Work: work, Markdown: markdown.HTML, Highlight: highlight.Lines}, err
}

// openShards takes the shards up where their journals are, or follows the server that writes these.
func openShards(l line, config store.Config) (*shards.Set, error) {
	redis, err := logOptions(l)
	if err != nil {
		return nil, err
	}
	follow, err := followOptions(l)
	if err != nil {
		return nil, err
	}
	return shards.Open(shards.Config{Logs: redis, Follow: follow, Store: config})
}

// way is one way in: what serves a listener until the context is done.
type way struct {
	name     string
	listener net.Listener
	serve    func(ctx context.Context, listener net.Listener) error
}

// listen opens all that the flags ask for, or nothing.
func (s *server) listen() (ways []way, err error) {
	path, err := filepath.Abs(socket(s.line))
	if err != nil {
		return nil, err
	}
	opened, err := operator.Listen(path)
	if err != nil {
		return nil, err
	}
	ways = append(ways, way{"socket", opened, s.operator.Serve})
	for _, open := range []func() (*way, error){s.http, s.redirect, s.ssh} {
		it, err := open()
		if err != nil {
			for _, before := range ways {
				before.listener.Close()
			}
			return nil, err
		}
		if it != nil {
			ways = append(ways, *it)
		}
	}
	return ways, nil
}

func (s *server) http() (*way, error) {
	address, has := s.line.flags["--http"]
	if !has {
		return nil, nil
	}
	var err error
	if s.secured, err = s.secure(); err != nil {
		return nil, err
	}
	listener, err := net.Listen("tcp", address)
	if err != nil {
		return nil, err
	}
	name := "http"
	listener = s.gateway.Limits.Listen(listener)
	if s.secured != nil {
		s.httpsPort = listener.Addr().(*net.TCPAddr).Port
		name, listener = "https", tls.NewListener(listener, s.secured.config)
		s.gateway.URL = s.acmeURL()
	} else if ip := listener.Addr().(*net.TCPAddr).IP; !ip.IsLoopback() {
		s.gateway.Log.Printf("passwords travel unencrypted to %v: give --certificate, or put a front with TLS before it", listener.Addr())
	}
	return &way{name, listener, func(ctx context.Context, listener net.Listener) error { return httpd.Serve(ctx, listener, s.gateway) }}, nil
}

func (s *server) ssh() (*way, error) {
	address, has := s.line.flags["--ssh"]
	if !has {
		return nil, nil
	}
	keys, err := s.hostKeys()
	if err != nil {
		return nil, err
	}
	listener, err := net.Listen("tcp", address)
	if err != nil {
		return nil, err
	}
	s.gateway.SSHPort = listener.Addr().(*net.TCPAddr).Port
	return &way{"ssh", s.gateway.Limits.ListenIdle(listener),
		func(ctx context.Context, listener net.Listener) error {
			return sshd.Serve(ctx, listener, s.gateway, keys)
		}}, nil
}

// hostKeys reads the keys of the ssh server. A folder of an older version has the first one alone.
func (s *server) hostKeys() (keys []ssh.Signer, err error) {
	for _, it := range hostKeys {
		text, err := regular.Read(filepath.Join(s.line.folder, it.file))
		if errors.Is(err, os.ErrNotExist) && len(keys) > 0 {
			continue
		}
		if err != nil {
			return nil, err
		}
		key, err := ssh.ParsePrivateKey(text)
		if err != nil {
			return nil, fmt.Errorf("%s: %w", it.file, err)
		}
		keys = append(keys, key)
	}
	return keys, nil
}

// serve serves all ways until the context is done. Where one of them fails, all end.
func (s *server) serve(ctx context.Context, ways []way) error {
	defer s.keep()()
	group, ctx := errgroup.WithContext(ctx)
	status := "serving"
	for _, it := range ways {
		s.gateway.Log.Printf("serving %s on %v", it.name, it.listener.Addr())
		status += fmt.Sprintf(" %s on %v", it.name, it.listener.Addr())
		group.Go(func() error {
			if err := it.serve(ctx, it.listener); err != nil && ctx.Err() == nil {
				return fmt.Errorf("%s: %w", it.name, err)
			}
			return nil
		})
	}
	tellSystem(s.gateway.Log, notify.Ready, notify.Status(status))
	return group.Wait()
}

// keep lets run what goes on beside requests, and gives the call that ends it.
func (s *server) keep() (end func()) {
	keeping, stop := context.WithCancel(context.Background())
	go s.store.Keep(keeping, s.rhythm)
	go s.gateway.Daily.Keep(keeping.Done())
	go s.gateway.Catalogue.Keep(keeping.Done())
	s.gateway.Hooks.Start()
	var gits errgroup.Group
	for _, keep := range []func(context.Context){s.mirrors.Keep, s.gateway.Packs.Keep} {
		gits.Go(func() error { keep(keeping); return nil })
	}
	if s.secured != nil && s.secured.begin != nil {
		s.secured.begin(keeping)
	}
	return func() {
		stop()
		_ = gits.Wait()
	}
}

func (s *server) rhythm() store.Rhythm {
	values := s.gateway.Limits.Fresh()
	return store.Rhythm{JournalBytes: values.JournalBytes, SaveEvery: values.SaveEvery, Step: values.Step}
}
