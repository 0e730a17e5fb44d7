package sshd

import "time"

// SetQuiet says how long a client may be quiet, and gives how long it might before.
func SetQuiet(now time.Duration) (before time.Duration) {
	before, quiet = quiet, now
	return before
}
