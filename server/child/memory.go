package child

import (
	"errors"
	"fmt"
	"os"
	"os/exec"
	"syscall"
)

// Memory is how much memory a process has, in bytes.
type Memory struct {
	// Anonymous is its own memory: RssAnon of proc(5).
	Anonymous int64
	// File is what is in memory of the files that it maps: RssFile, and RssShmem for a tmpfs. The kernel may drop what is of a disk, and read it again.
	File int64
	// Mapped is the size of what it maps of files, in memory or not.
	Mapped int64
}

// Held is its own memory and all that it maps, which does not change when the kernel drops pages of files.
func (m Memory) Held() int64 { return m.Anonymous + m.Mapped }

// MemoryOf tells the memory of a process. All is 0 where that is not known.
func MemoryOf(pid int) Memory {
	text, err := os.ReadFile(fmt.Sprintf("/proc/%d/statm", pid))
	var size, resident, file, code, libraries, data int64
	if err != nil {
		return Memory{}
	}
	if _, err := fmt.Sscan(string(text), &size, &resident, &file, &code, &libraries, &data); err != nil {
		return Memory{}
	}
	page := int64(os.Getpagesize())
	return Memory{Anonymous: (resident - file) * page, File: file * page, Mapped: (size - data) * page}
}

// Why says how a child ended that nobody told to end.
func Why(result error) string {
	var exit *exec.ExitError
	if errors.As(result, &exit) {
		if status, is := exit.Sys().(syscall.WaitStatus); is && status.Signaled() && status.Signal() == syscall.SIGBUS {
			return "SIGBUS, for a page of its pool file is gone or cannot be read: somebody has cut the file, or its disk fails"
		}
	}
	return fmt.Sprint(result)
}
