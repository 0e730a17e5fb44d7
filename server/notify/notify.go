// Package notify tells systemd how the server stands, as sd_notify(3) does, where systemd asks for it.
package notify

import (
	"net"
	"os"
	"strings"
)

// What a service tells: that it serves, and that it stops.
const (
	Ready    = "READY=1"
	Stopping = "STOPPING=1"
)

// Status says how the server stands, in words for `systemctl status`.
func Status(words string) string { return "STATUS=" + strings.ReplaceAll(words, "\n", " ") }

// Tell sends such lines to the socket that NOTIFY_SOCKET names, in one message, and nothing where there is none.
func Tell(lines ...string) error {
	path := os.Getenv("NOTIFY_SOCKET")
	if path == "" {
		return nil
	}
	conn, err := net.Dial("unixgram", path)
	if err != nil {
		return err
	}
	defer conn.Close()
	_, err = conn.Write([]byte(strings.Join(lines, "\n")))
	return err
}
