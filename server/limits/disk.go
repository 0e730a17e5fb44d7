package limits

import "syscall"

// ErrDisk refuses what would take the room that is kept for the journal.
const ErrDisk = Passed("the server's disk has no more room than `disk-reserve` keeps for its journal; nothing of this push was kept")

// leastShare is which part of a disk is the most that is kept: of a small one the whole reserve would be all.
const leastShare = 4

// free gives how many bytes the file system of a folder has left, and how many it has in all.
var free = func(folder string) (left, all int64, err error) {
	var found syscall.Statfs_t
	err = syscall.Statfs(folder, &found)
	return int64(found.Bavail) * found.Bsize, int64(found.Blocks) * found.Bsize, err
}

// MayGrow is ErrDisk where the file system of a folder has less left than is kept for the journal. One that does not say what it has is not asked.
func (l *Limits) MayGrow(folder string) error {
	left, all, err := free(folder)
	reserve := l.Get().DiskReserve
	reserve = min(reserve, all/leastShare)
	if err == nil && left < reserve {
		return ErrDisk
	}
	return nil
}
