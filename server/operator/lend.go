package operator

import (
	"bufio"
	"context"
	"fmt"
	"io"
	"net"
	"os"
	"strings"
	"time"

	"gitpoold/audit"
	"gitpoold/backups"
)

// momentCommand asks for a folder with what the server's folder has at one moment, which is there as long as the connection.
const momentCommand = "moment"

// lend answers with the path of such a folder.
func (d *Server) lend(ctx context.Context, who audit.Who, conn net.Conn, in *bufio.Reader) {
	folder, err := d.moment(ctx)
	d.gateway.Log.Operator(who.Line(momentCommand, err))
	if err != nil {
		fmt.Fprintf(conn, "error %s\n", err)
		return
	}
	defer os.RemoveAll(folder)
	if _, err := fmt.Fprintf(conn, "ok\n%s\n", folder); err == nil && conn.SetReadDeadline(time.Time{}) == nil {
		_, _ = io.Copy(io.Discard, in)
	}
}

func (d *Server) moment(ctx context.Context) (folder string, err error) {
	if folder, err = os.MkdirTemp(d.gateway.Work, "moment-"); err != nil {
		return "", err
	}
	soon, stop := context.WithTimeout(ctx, countWithin)
	defer stop()
	take := func() error { return backups.Take(d.gateway.Folder, folder) }
	err = d.store.Still(soon, func() error {
		if d.gateway.LFS == nil {
			return take()
		}
		return d.gateway.LFS.Still(take)
	})
	if err != nil {
		os.RemoveAll(folder)
	}
	return folder, err
}

// Moment asks the server of a socket for such a folder, which is there until the call that it gives.
func Moment(path string) (folder string, end func(), err error) {
	conn, err := dial(path)
	if err != nil {
		return "", nil, err
	}
	if _, err = fmt.Fprintln(conn, strings.Join(audit.Self().Signed([]string{momentCommand}), " ")); err == nil {
		in := bufio.NewReader(conn)
		var head string
		head, err = in.ReadString('\n')
		if err == nil {
			err = answered(strings.TrimSuffix(head, "\n"))
		}
		if err == nil {
			folder, err = in.ReadString('\n')
		}
	}
	if err != nil {
		conn.Close()
		return "", nil, err
	}
	return strings.TrimSuffix(folder, "\n"), func() { conn.Close() }, nil
}
