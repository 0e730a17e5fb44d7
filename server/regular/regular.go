// Package regular opens the files of a server's folder. What is no regular file, nor a link to one, is refused: a named pipe would let the server
// wait for ever, and a device would be what nobody meant.
package regular

import (
	"fmt"
	"io"
	"io/fs"
	"os"
	"path/filepath"
	"syscall"
)

// NotFile says that something else stands where a file should.
type NotFile struct {
	Path string
	Mode fs.FileMode
}

func (n *NotFile) Error() string {
	return fmt.Sprintf("%s is %s, and should be a file; nothing was changed", n.Path, kindOf(n.Mode))
}

func kindOf(mode fs.FileMode) string {
	switch {
	case mode.IsDir():
		return "a folder"
	case mode&fs.ModeNamedPipe != 0:
		return "a named pipe"
	case mode&fs.ModeSocket != 0:
		return "a socket"
	}
	return "a device"
}

// Open opens a file for reading, or for what the flags say, and waits for nobody.
func Open(path string, flags int) (*os.File, error) {
	// What is there is asked first, for to open a device may do something.
	info, err := os.Stat(path)
	if err != nil {
		return nil, err
	}
	if !info.Mode().IsRegular() {
		return nil, &NotFile{path, info.Mode()}
	}
	return os.OpenFile(path, flags|syscall.O_NONBLOCK, 0)
}

// Read reads a file.
func Read(path string) ([]byte, error) {
	file, err := Open(path, os.O_RDONLY)
	if err != nil {
		return nil, err
	}
	defer file.Close()
	return io.ReadAll(file)
}

// Owner gives the user and the group to whom a file or a folder belongs.
func Owner(path string) (user, group int, err error) {
	info, err := os.Stat(path)
	if err != nil {
		return 0, 0, err
	}
	of := info.Sys().(*syscall.Stat_t)
	return int(of.Uid), int(of.Gid), nil
}

// Own gives a file to the owner of a folder. Where root has made it, the server, which is another user then, could not open it. Whoever may not give
// it away is refused.
func Own(file *os.File, folder string) error {
	user, group, err := Owner(folder)
	if err != nil {
		return err
	}
	info, err := file.Stat()
	if err != nil || int(info.Sys().(*syscall.Stat_t).Uid) == user {
		return err
	}
	return file.Chown(user, group)
}

// Create makes a file that is not there, which belongs to the owner of a folder, and syncs it.
func Create(path, text, folder string, mode os.FileMode) error {
	file, err := os.OpenFile(path, os.O_WRONLY|os.O_CREATE|os.O_EXCL, 0o600)
	if err != nil {
		return err
	}
	if err = Own(file, folder); err == nil {
		err = file.Chmod(mode)
	}
	if err == nil {
		_, err = file.WriteString(text)
	}
	if err == nil {
		err = file.Sync()
	}
	if closing := file.Close(); err == nil {
		err = closing
	}
	return err
}

// SyncFolder syncs a folder, so that the names of its files last.
func SyncFolder(path string) error {
	folder, err := os.Open(path)
	if err != nil {
		return err
	}
	defer folder.Close()
	return folder.Sync()
}

// SyncFolders syncs a folder and all below it.
func SyncFolders(path string) error {
	return filepath.WalkDir(path, func(path string, it fs.DirEntry, err error) error {
		if err == nil && it.IsDir() {
			err = SyncFolder(path)
		}
		return err
	})
}
