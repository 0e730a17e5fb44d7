//go:build faultpoints

// Package faultpoint marks the places at which a test ends the server, its child or both.
//
// GITPOOLD_FAULT is WHOM:N, where WHOM is server, child, both, or second for the second child, if there is one: the N-th fault point that the server comes to, counted from 1, kills
// it by signal 9. So does the first one of a name, where that stands in the place of N. The file GITPOOLD_FAULT_LOG gets the name of each fault point before anything is killed there.
package faultpoint

import (
	"fmt"
	"os"
	"strconv"
	"strings"
	"sync"
	"syscall"
)

// Enabled tells whether this build has fault points.
const Enabled = true

var (
	mutex  sync.Mutex
	child  int
	second int
	count  int
	isOver bool
)

// SetChild tells which process is the child.
func SetChild(pid int) {
	mutex.Lock()
	defer mutex.Unlock()
	child = pid
}

// SetSecond tells which process is the second child, 0 for none.
func SetSecond(pid int) {
	mutex.Lock()
	defer mutex.Unlock()
	second = pid
}

// Here is a fault point.
func Here(name string) {
	mutex.Lock()
	defer mutex.Unlock()
	count++
	note(name)
	whom, wanted, found := strings.Cut(os.Getenv("GITPOOLD_FAULT"), ":")
	if !found || isOver || wanted != name && wanted != strconv.Itoa(count) {
		return
	}
	isOver = true
	if (whom == "child" || whom == "both") && child > 0 {
		_ = syscall.Kill(child, syscall.SIGKILL)
	}
	if whom == "second" && second > 0 {
		_ = syscall.Kill(second, syscall.SIGKILL)
	}
	if whom == "server" || whom == "both" {
		_ = syscall.Kill(os.Getpid(), syscall.SIGKILL)
		select {}
	}
}

func note(name string) {
	path := os.Getenv("GITPOOLD_FAULT_LOG")
	if path == "" {
		return
	}
	file, err := os.OpenFile(path, os.O_WRONLY|os.O_CREATE|os.O_APPEND, 0o600)
	if err != nil {
		return
	}
	defer file.Close()
	fmt.Fprintf(file, "%d %s\n", count, name)
}
