package webhooks

import (
	"bytes"
	"context"
	"crypto/hmac"
	"crypto/sha256"
	"crypto/tls"
	"encoding/hex"
	"encoding/json"
	"errors"
	"fmt"
	"io"
	"net"
	"net/http"
	"net/netip"
	"net/url"
	"path/filepath"
	"strings"
	"syscall"
	"time"
)

// mostAnswer is how much of an answer that refuses a delivery is read, for its reason.
const mostAnswer = 200

// deliver makes one attempt, within the time of a hook. Any status from 200 to 299 means that the delivery was taken.
func (s *Sender) deliver(d delivery, body []byte) error {
	ctx, stop := context.WithTimeout(s.ctx, s.Within())
	defer stop()
	err := s.post(ctx, d, body)
	switch {
	case err != nil && s.ctx.Err() != nil:
		return ErrStopped
	case err != nil && ctx.Err() != nil:
		return ErrLate
	}
	return err
}

func (s *Sender) post(ctx context.Context, d delivery, body []byte) error {
	request, err := http.NewRequestWithContext(ctx, http.MethodPost, d.Address, bytes.NewReader(body))
	if err != nil {
		return errors.New("it is no address")
	}
	now := s.settings.Get()
	head := request.Header
	head.Set("Content-Type", "application/json")
	head.Set("User-Agent", "gitpoold")
	head.Set("X-Gitpoold-Event", d.Event)
	head.Set("X-Gitpoold-Delivery", d.ID)
	if secret := now.secrets[d.Address]; secret != "" {
		head.Set("X-Hub-Signature-256", "sha256="+signature(secret, body))
	}
	client, err := now.client(request)
	if err != nil {
		return err
	}
	answer, err := client.Do(request)
	if err != nil {
		return withoutAddress(err)
	}
	defer answer.Body.Close()
	if answer.StatusCode < 200 || answer.StatusCode > 299 {
		return refusal(answer)
	}
	return nil
}

// signature is the HMAC of RFC 2104 by SHA-256, in digits.
func signature(secret string, body []byte) string {
	mac := hmac.New(sha256.New, []byte(secret))
	mac.Write(body)
	return hex.EncodeToString(mac.Sum(nil))
}

// refusal says what an address answered.
func refusal(answer *http.Response) error {
	text, _ := io.ReadAll(io.LimitReader(answer.Body, mostAnswer))
	first, _, _ := strings.Cut(strings.TrimSpace(string(text)), "\n")
	if first == "" {
		return fmt.Errorf("it answered %d", answer.StatusCode)
	}
	return fmt.Errorf("it answered %d: %q", answer.StatusCode, first)
}

// withoutAddress takes the address out of an error, for it may have a password.
func withoutAddress(err error) error {
	var wrapped *url.Error
	if errors.As(err, &wrapped) {
		return wrapped.Err
	}
	return err
}

// client gives what makes a request. It follows no redirection, and it reads of an answer no more than its head and what refusal reads. It
// connects to addresses that are public or allowed. Where the environment names a proxy, that one connects, and only what the request names is
// looked at.
func (s settings) client(request *http.Request) (*http.Client, error) {
	proxy, err := http.ProxyFromEnvironment(request)
	if err != nil {
		return nil, err
	}
	dialer := &net.Dialer{Timeout: 30 * time.Second}
	if proxy == nil {
		dialer.Control = s.check
	} else if named, err := netip.ParseAddr(request.URL.Hostname()); err == nil && !s.mayReach(named) {
		return nil, inside(named)
	}
	return &http.Client{
		Transport: &http.Transport{Proxy: http.ProxyURL(proxy), DialContext: dialer.DialContext, DisableKeepAlives: true,
			MaxResponseHeaderBytes: 32 << 10, TLSClientConfig: &tls.Config{MinVersion: tls.VersionTLS12}},
		CheckRedirect: func(*http.Request, []*http.Request) error { return http.ErrUseLastResponse },
	}, nil
}

// check looks at an address right before it is connected to, so no name can come to another one after it.
func (s settings) check(_, address string, _ syscall.RawConn) error {
	found, err := netip.ParseAddrPort(address)
	if err != nil {
		return err
	}
	if !s.mayReach(found.Addr()) {
		return inside(found.Addr())
	}
	return nil
}

func inside(address netip.Addr) error {
	return fmt.Errorf("%v is no public address; `gitpoold webhook DIR allow %v` allows it", address, address.Unmap())
}

// mayReach tells whether an address is public or allowed.
func (s settings) mayReach(address netip.Addr) bool {
	address = address.Unmap().WithZone("")
	for _, it := range s.networks {
		if it.Contains(address) {
			return true
		}
	}
	return isPublic(address)
}

// notPublic are networks that are in no internet beside those that netip knows: IANA's registries of special-purpose addresses, and those in which
// addresses of IPv4 stand.
var notPublic = func() (all []netip.Prefix) {
	for _, it := range strings.Fields("0.0.0.0/8 100.64.0.0/10 192.0.0.0/24 192.0.2.0/24 192.88.99.0/24 198.18.0.0/15 198.51.100.0/24 " +
		"203.0.113.0/24 240.0.0.0/4 64:ff9b::/96 64:ff9b:1::/48 100::/64 2001::/23 2001:db8::/32 2002::/16 fec0::/10 ::/96") {
		all = append(all, netip.MustParsePrefix(it))
	}
	return all
}()

func isPublic(address netip.Addr) bool {
	for _, it := range notPublic {
		if it.Contains(address) {
			return false
		}
	}
	return address.IsGlobalUnicast() && !address.IsPrivate()
}

// CheckPlace asks that an address which names a host by numbers names a public or an allowed one.
func CheckPlace(folder, where string) error {
	address, err := url.Parse(where)
	if err != nil {
		return fmt.Errorf("`%s` is no address of http", Shown(where))
	}
	named, err := netip.ParseAddr(address.Hostname())
	if err != nil {
		return nil
	}
	s, err := readSettings(filepath.Join(folder, listName))
	if err == nil && !s.mayReach(named) {
		err = inside(named)
	}
	return err
}

// Test delivers an event `ping` to an address at once, and gives what became of it.
func (s *Sender) Test(address string) error {
	if !IsAddress(address) {
		return fmt.Errorf("`%s` is no address of http", Shown(address))
	}
	d, body, err := s.made(address, Event{Name: "ping", Body: func(id string) ([]byte, error) {
		return json.Marshal(struct {
			Event    string `json:"event"`
			Delivery string `json:"delivery"`
		}{"ping", id})
	}})
	if err != nil {
		return err
	}
	err = s.deliver(d, body)
	d.Tries, d.Next = 1, time.Time{}
	s.history.note(d, d.Made, s.clock().Sub(d.Made), err, s.Tell)
	return err
}
