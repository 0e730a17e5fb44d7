// Package redistest runs a redis-server for a test, on a free port of 127.0.0.1.
package redistest

import (
	"fmt"
	"net"
	"os"
	"os/exec"
	"path/filepath"
	"syscall"
	"testing"
	"time"

	"github.com/gomodule/redigo/redis"

	"gitpoold/await"
)

// Server is a redis-server. Its folder outlives its process.
type Server struct {
	t        testing.TB
	folder   string
	port     int
	settings []string
	process  *exec.Cmd
}

// Start starts a server that syncs each write before it acknowledges it, unless the settings say otherwise. It ends with the test.
func Start(t testing.TB, settings ...string) *Server {
	t.Helper()
	s := &Server{t: t, folder: t.TempDir(), port: heldPort(t)}
	s.settings = append([]string{"--port", fmt.Sprint(s.port), "--bind", "127.0.0.1", "--dir", s.folder, "--logfile", "redis.log",
		"--save", "", "--appendonly", "yes", "--appendfsync", "always"}, settings...)
	t.Cleanup(s.Kill)
	s.Restart()
	return s
}

// Host is where the server answers.
func (s *Server) Host() string { return fmt.Sprintf("127.0.0.1:%d", s.port) }

// Address is the address of a journal under a key.
func (s *Server) Address(key string) string { return "redis://" + s.Host() + "/" + key }

// Restart starts the server again, and waits until it answers. A file that may not grow is answered like a full disk.
func (s *Server) Restart() {
	s.t.Helper()
	s.process = exec.Command("sh", append([]string{"-c", `trap "" XFSZ; exec redis-server "$@"`, "redis-server"}, s.settings...)...)
	if err := s.process.Start(); err != nil {
		s.t.Fatal(err)
	}
	for until := time.Now().Add(await.Longest); ; time.Sleep(5 * time.Millisecond) {
		conn, err := redis.Dial("tcp", s.Host())
		if err == nil {
			_, err = conn.Do("PING")
			conn.Close()
		}
		if err == nil {
			return
		}
		if time.Now().After(until) {
			text, _ := os.ReadFile(filepath.Join(s.folder, "redis.log"))
			s.t.Fatalf("redis-server does not answer: %v\n%s", err, text)
		}
	}
}

// Signal sends a signal to the server.
func (s *Server) Signal(signal syscall.Signal) {
	if s.process != nil {
		_ = s.process.Process.Signal(signal)
	}
}

// Kill kills the server, and waits until it is gone.
func (s *Server) Kill() {
	s.Signal(syscall.SIGKILL)
	s.Wait()
}

// Wait waits until the server is gone.
func (s *Server) Wait() {
	if s.process != nil {
		_ = s.process.Wait()
		s.process = nil
	}
}

// LimitFiles lets no file of the server grow beyond a size.
func (s *Server) LimitFiles(size int64) {
	s.t.Helper()
	command := exec.Command("prlimit", "--pid", fmt.Sprint(s.process.Process.Pid), fmt.Sprintf("--fsize=%d:unlimited", size))
	if text, err := command.CombinedOutput(); err != nil {
		s.t.Fatalf("prlimit: %v %s", err, text)
	}
}

// Do asks something of the server.
func (s *Server) Do(command string, words ...any) any {
	s.t.Helper()
	conn, err := redis.Dial("tcp", s.Host())
	if err != nil {
		s.t.Fatal(err)
	}
	defer conn.Close()
	answer, err := conn.Do(command, words...)
	if err != nil {
		s.t.Fatalf("%s: %v", command, err)
	}
	return answer
}

// Log is the file to which the server appends what it is told.
func (s *Server) Log() string {
	s.t.Helper()
	found, err := filepath.Glob(filepath.Join(s.folder, "appendonlydir", "*.incr.aof"))
	if err != nil || len(found) == 0 {
		s.t.Fatal("the server has no file to append to")
	}
	return found[len(found)-1]
}

// LogBytes is how large that file is.
func (s *Server) LogBytes() int64 {
	s.t.Helper()
	info, err := os.Stat(s.Log())
	if err != nil {
		s.t.Fatal(err)
	}
	return info.Size()
}

// Lose kills the server and takes back what it appended behind a size, and starts it again.
func (s *Server) Lose(size int64) {
	s.t.Helper()
	file := s.Log()
	s.Kill()
	if err := os.Truncate(file, size); err != nil {
		s.t.Fatal(err)
	}
	s.Restart()
}

// StartSentinel starts a Sentinel that watches a server under a name, and puts a replica in its place after half a second of silence.
func StartSentinel(t testing.TB, name string, watched *Server) *Server {
	t.Helper()
	host, port, _ := net.SplitHostPort(watched.Host())
	file := filepath.Join(t.TempDir(), "sentinel.conf")
	text := fmt.Sprintf("sentinel monitor %s %s %s 1\nsentinel down-after-milliseconds %s 500\nsentinel failover-timeout %s 5000\n",
		name, host, port, name, name)
	if err := os.WriteFile(file, []byte(text), 0o600); err != nil {
		t.Fatal(err)
	}
	s := &Server{t: t, folder: t.TempDir(), port: heldPort(t)}
	s.settings = []string{file, "--sentinel", "--port", fmt.Sprint(s.port), "--bind", "127.0.0.1", "--dir", s.folder, "--logfile", "redis.log"}
	t.Cleanup(s.Kill)
	s.Restart()
	return s
}

// heldPort gives a port of a server's own until the test ends: a socket has it that does not listen, so that a server may, also one that is started
// again, and the system gives the port to no connection meanwhile.
func heldPort(t testing.TB) int {
	t.Helper()
	socket, err := syscall.Socket(syscall.AF_INET, syscall.SOCK_STREAM|syscall.SOCK_CLOEXEC, 0)
	if err != nil {
		t.Fatal(err)
	}
	t.Cleanup(func() { syscall.Close(socket) })
	if err = syscall.SetsockoptInt(socket, syscall.SOL_SOCKET, syscall.SO_REUSEADDR, 1); err == nil {
		err = syscall.Bind(socket, &syscall.SockaddrInet4{Addr: [4]byte{127, 0, 0, 1}})
	}
	if err != nil {
		t.Fatal(err)
	}
	address, err := syscall.Getsockname(socket)
	if err != nil {
		t.Fatal(err)
	}
	return address.(*syscall.SockaddrInet4).Port
}
