package mirrors

import (
	"os"
	"path/filepath"
	"strconv"
	"strings"
	"syscall"
)

// endOld ends processes of git that a server which was killed has left in the repositories of mirrors. Their git has ended with that server, but a
// helper of it waits for the other host.
func endOld(folder string) {
	for _, pid := range workingIn(folder) {
		_ = syscall.Kill(pid, syscall.SIGKILL)
	}
}

// workingIn gives the processes whose folder is below another one.
func workingIn(folder string) (pids []int) {
	if real, err := filepath.EvalSymlinks(folder); err == nil {
		folder = real
	}
	all, _ := filepath.Glob("/proc/[0-9]*/cwd")
	for _, path := range all {
		at, err := os.Readlink(path)
		pid, isNumber := strconv.Atoi(filepath.Base(filepath.Dir(path)))
		if err == nil && isNumber == nil && strings.HasPrefix(at, folder+"/") {
			pids = append(pids, pid)
		}
	}
	return pids
}
