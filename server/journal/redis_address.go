package journal

import (
	"crypto/tls"
	"errors"
	"fmt"
	"strings"
	"time"

	"github.com/gomodule/redigo/redis"
)

// Address says where the stream of a journal is: the hosts of a Redis or of the Sentinels that know it, who connects, and the key.
type Address struct {
	hosts []string
	// primary is the name by which Sentinels know the Redis, empty where the host is the Redis itself.
	primary        string
	user, password string
	isTLS          bool
	key            string
}

const addressForms = "redis://[USER@]HOST:PORT/KEY, rediss://[USER@]HOST:PORT/KEY or sentinel://[USER@]HOST:PORT[,HOST:PORT..]/NAME/KEY"

// ParseAddress reads an address. It has no password, because everybody on the machine can read the words of a command.
func ParseAddress(text, password string) (Address, error) {
	scheme, rest, _ := strings.Cut(text, "://")
	place, key, _ := strings.Cut(rest, "/")
	it := Address{password: password, isTLS: scheme == "rediss"}
	if user, hosts, has := strings.Cut(place, "@"); has {
		it.user, place = user, hosts
	}
	if scheme == "sentinel" {
		it.primary, key, _ = strings.Cut(key, "/")
	}
	it.hosts, it.key = strings.Split(place, ","), key
	isKnown := scheme == "redis" || scheme == "rediss" || scheme == "sentinel" && it.primary != ""
	switch {
	case strings.Contains(it.user, ":"):
		return it, errors.New("an address has no password; put it into the file redis-password of the folder")
	case !isKnown || key == "" || place == "" || scheme != "sentinel" && len(it.hosts) > 1:
		return it, fmt.Errorf("`%s` is no address of a journal: it has the form %s", text, addressForms)
	}
	return it, nil
}

// String gives the address as messages tell it.
func (a Address) String() string {
	scheme, front := "redis", ""
	if a.isTLS {
		scheme = "rediss"
	}
	if a.primary != "" {
		scheme, front = "sentinel", a.primary+"/"
	}
	return scheme + "://" + strings.Join(a.hosts, ",") + "/" + front + a.key
}

// Beside gives the address of another log of the same service, under a key that goes on with a word.
func (a Address) Beside(word string) Address {
	a.key += "/" + word
	return a
}

// dial connects to a host. Nothing waits for it longer than `within`.
func (a Address) dial(host string, within time.Duration) (redis.Conn, error) {
	options := []redis.DialOption{redis.DialConnectTimeout(within), redis.DialReadTimeout(within), redis.DialWriteTimeout(within)}
	if a.isTLS {
		options = append(options, redis.DialUseTLS(true), redis.DialTLSConfig(&tls.Config{MinVersion: tls.VersionTLS12}))
	}
	return redis.Dial("tcp", host, options...)
}

// enter shows the password, if there is one.
func (a Address) enter(conn redis.Conn) (err error) {
	switch {
	case a.user != "":
		_, err = conn.Do("AUTH", a.user, a.password)
	case a.password != "":
		_, err = conn.Do("AUTH", a.password)
	}
	return err
}

// host gives the host of the Redis that takes writes.
func (a Address) host(within time.Duration) (host string, err error) {
	if a.primary == "" {
		return a.hosts[0], nil
	}
	for _, sentinel := range a.hosts {
		if host, err = a.ask(sentinel, within); err == nil {
			return host, nil
		}
	}
	return "", err
}

// ask asks a Sentinel for the primary.
func (a Address) ask(sentinel string, within time.Duration) (string, error) {
	conn, err := a.dial(sentinel, within)
	if err != nil {
		return "", err
	}
	defer conn.Close()
	found, err := redis.Strings(conn.Do("SENTINEL", "get-master-addr-by-name", a.primary))
	if err != nil {
		return "", fmt.Errorf("the Sentinel %s knows no %s: %w", sentinel, a.primary, err)
	}
	if len(found) != 2 {
		return "", fmt.Errorf("the Sentinel %s knows no %s", sentinel, a.primary)
	}
	return strings.Join(found, ":"), nil
}

// connect connects to the Redis that takes writes. It may be ErrUnsynced.
func (o *Options) connect() (redis.Conn, error) {
	within := o.tryWithin()
	host, err := o.Address.host(within)
	if err != nil {
		return nil, err
	}
	conn, err := o.Address.dial(host, within)
	if err != nil {
		return nil, err
	}
	if err = o.Address.enter(conn); err == nil {
		err = o.examine(conn)
	}
	if err != nil {
		conn.Close()
		return nil, err
	}
	return conn, nil
}

// ErrUnsynced says that a Redis tells of records before they are on its disk, or drops them when it is full.
var ErrUnsynced = errors.New("a push that is told would not last (docs/DEPLOY.md, \"The journal in Redis\")")

// wantedSettings are those without which Redis may lose what it has acknowledged.
var wantedSettings = [...]struct{ name, value string }{
	{"appendonly", "yes"}, {"appendfsync", "always"}, {"no-appendfsync-on-rewrite", "no"}, {"maxmemory-policy", "noeviction"},
}

// examine asks that a Redis takes writes and, unless that is not wanted, that it syncs each before it acknowledges it.
func (o *Options) examine(conn redis.Conn) error {
	role, err := redis.Values(conn.Do("ROLE"))
	if err != nil {
		return err
	}
	if name, _ := redis.String(role[0], nil); name != "master" {
		return fmt.Errorf("%v is a replica, which takes no writes", o.Address)
	}
	if o.IsUnsynced {
		return nil
	}
	for _, it := range wantedSettings {
		found, err := redis.Strings(conn.Do("CONFIG", "GET", it.name))
		if err != nil {
			return fmt.Errorf("%v does not tell whether it syncs: %v: %w", o.Address, err, ErrUnsynced)
		}
		if len(found) != 2 || found[1] != it.value {
			return fmt.Errorf("%v has not the setting `%s %s`: %w", o.Address, it.name, it.value, ErrUnsynced)
		}
	}
	return nil
}
