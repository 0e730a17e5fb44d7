package sshd_test

import (
	"encoding/binary"
	"fmt"
	"io"
	"net"
	"strings"
	"testing"
	"time"

	"golang.org/x/crypto/ssh"
)

// offers is what a server says first: its KEXINIT.
type offers struct {
	Cookie                                   [16]byte `sshtype:"20"`
	Exchanges, HostKeys                      []string
	CiphersIn, CiphersOut, CodesIn, CodesOut []string
	CompressionsIn, CompressionsOut          []string
	LanguagesIn, LanguagesOut                []string
	Follows                                  bool
	Reserved                                 uint32
}

// offered reads what a server offers.
func offered(t *testing.T, address string) (it offers) {
	t.Helper()
	c, err := net.Dial("tcp", address)
	check(t, err)
	defer c.Close()
	check(t, c.SetDeadline(time.Now().Add(20*time.Second)))
	_, err = io.WriteString(c, "SSH-2.0-x\r\n")
	check(t, err)
	for letter := make([]byte, 1); letter[0] != '\n'; {
		_, err := io.ReadFull(c, letter)
		check(t, err)
	}
	head := make([]byte, 5)
	_, err = io.ReadFull(c, head)
	check(t, err)
	packet := make([]byte, binary.BigEndian.Uint32(head)-1)
	_, err = io.ReadFull(c, packet)
	check(t, err)
	check(t, ssh.Unmarshal(packet[:len(packet)-int(head[4])], &it))
	return it
}

// TestWhatIsOfferedIsSafeWithoutStrictKeyExchange looks for what lets somebody between cut off the beginning of a connection unseen, and for what is
// weak.
func TestWhatIsOfferedIsSafeWithoutStrictKeyExchange(t *testing.T) {
	it := offered(t, hosted(t, "").address)
	all := strings.Join(append(append(append(it.CiphersIn, it.CiphersOut...), it.CodesIn...), it.CodesOut...), " ")
	for _, word := range []string{"chacha20", "-etm@", "-cbc", "arcfour", "sha1", "md5"} {
		if strings.Contains(all, word) {
			t.Errorf("%s is among %s", word, all)
		}
	}
	for _, word := range []string{"aes128-gcm@openssh.com", "aes256-ctr", "hmac-sha2-256"} {
		if strings.Count(all, word) != 2 {
			t.Errorf("%s is not among %s in both directions", word, all)
		}
	}
}

// TestEachCipherThatIsOfferedWorks connects with each.
func TestEachCipherThatIsOfferedWorks(t *testing.T) {
	host := hosted(t, "")
	for _, cipher := range offered(t, host.address).CiphersIn {
		config := *host.config
		config.Ciphers = []string{cipher}
		client, err := ssh.Dial("tcp", host.address, &config)
		if err != nil {
			t.Fatal(fmt.Errorf("%s: %w", cipher, err))
		}
		if !isLetIn(t, client) {
			t.Errorf("%s: a user is not let in", cipher)
		}
		client.Close()
	}
}
