package operator

import (
	"errors"
	"fmt"
	"io"
	"net"
	"os"
	"path/filepath"
	"strings"
	"syscall"
	"time"

	"gitpoold/audit"
)

// ErrNoServer says that no server answers at a socket.
var ErrNoServer = errors.New("no server runs there")

// Call sends a command to the server of a socket, and gives its text. An error is the server's sentence.
func Call(path string, words ...string) (string, error) { return call(path, time.Time{}, words...) }

// call does so until a time at most.
func call(path string, until time.Time, words ...string) (string, error) {
	conn, err := dial(path)
	if err != nil {
		return "", err
	}
	defer conn.Close()
	if err := conn.SetDeadline(until); err != nil {
		return "", err
	}
	if _, err := fmt.Fprintln(conn, strings.Join(audit.Self().Signed(words), " ")); err != nil {
		return "", err
	}
	text, err := io.ReadAll(conn)
	if err != nil {
		return "", err
	}
	head, rest, _ := strings.Cut(string(text), "\n")
	return rest, answered(head)
}

func dial(path string) (net.Conn, error) {
	conn, err := net.Dial("unix", path)
	if errors.Is(err, os.ErrNotExist) || errors.Is(err, syscall.ECONNREFUSED) {
		err = ErrNoServer
	}
	return conn, err
}

// answered gives the error that the first line of an answer says, which is the server's sentence.
func answered(head string) error {
	if head == "ok" {
		return nil
	}
	if sentence := strings.TrimPrefix(head, "error "); sentence != head {
		return errors.New(sentence)
	}
	return errors.New("the server ended before it answered")
}

// confirmWithin is how long the server of a folder has to say that it has read a list.
const confirmWithin = 5 * time.Second

// Confirm asks the server of a folder, if there is one, to read a list again that was changed so. It is nil once what the list says holds, and where
// no server runs, which reads it when it starts.
func Confirm(folder, socket, list, what string) error {
	for until := time.Now().Add(confirmWithin); ; time.Sleep(100 * time.Millisecond) {
		isServed, err := isServed(folder)
		if err == nil && !isServed {
			return nil
		}
		if err == nil {
			_, err = call(socket, until, changedCommand, list, what)
		}
		if err == nil {
			return nil
		}
		if !errors.Is(err, ErrNoServer) || time.Now().After(until) {
			return fmt.Errorf("the change is written, but the server that has %s did not say within %v that it has read it: %w; what it read before may hold",
				folder, confirmWithin, err)
		}
	}
}

// isServed tells whether a server has a folder: then it holds the lock there.
func isServed(folder string) (bool, error) {
	file, err := os.Open(filepath.Join(folder, "lock"))
	if errors.Is(err, os.ErrNotExist) {
		return false, nil
	}
	if err != nil {
		return false, err
	}
	defer file.Close()
	err = syscall.Flock(int(file.Fd()), syscall.LOCK_SH|syscall.LOCK_NB)
	if err == syscall.EWOULDBLOCK {
		return true, nil
	}
	return false, err
}

// peer gives who is at the other end of a connection.
func peer(conn net.Conn) audit.Who {
	who := audit.Who{ID: -1}
	raw, is := conn.(syscall.Conn)
	if !is {
		return who
	}
	of, err := raw.SyscallConn()
	if err != nil {
		return who
	}
	_ = of.Control(func(descriptor uintptr) {
		if found, err := syscall.GetsockoptUcred(int(descriptor), syscall.SOL_SOCKET, syscall.SO_PEERCRED); err == nil {
			who.ID = int(found.Uid)
		}
	})
	return who
}
