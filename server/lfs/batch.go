package lfs

import (
	"errors"
	"fmt"
	"net/http"
)

// The operations of a batch, and what a client asks for after an upload.
const (
	Upload   = "upload"
	Download = "download"
	Verify   = "verify"
)

// Batch is what a client asks for before it sends or fetches files.
type Batch struct {
	Operation string   `json:"operation"`
	Transfers []string `json:"transfers"`
	HashAlgo  string   `json:"hash_algo"`
	Objects   []Object `json:"objects"`
}

// Action is how a client does one thing.
type Action struct {
	Href      string            `json:"href"`
	Header    map[string]string `json:"header,omitempty"`
	ExpiresIn int64             `json:"expires_in,omitempty"`
}

// Failure says why a file cannot be sent or fetched, by a number of http.
type Failure struct {
	Code    int    `json:"code"`
	Message string `json:"message"`
}

// Reply says what to do with one file.
type Reply struct {
	Object
	Authenticated bool              `json:"authenticated,omitempty"`
	Actions       map[string]Action `json:"actions,omitempty"`
	Error         *Failure          `json:"error,omitempty"`
}

// Answer answers a Batch.
type Answer struct {
	Transfer string  `json:"transfer"`
	HashAlgo string  `json:"hash_algo"`
	Objects  []Reply `json:"objects"`
}

// mostObjects is how many files one batch may name. Clients name a hundred.
const mostObjects = 1000

// Check is the refusal of a batch that is not answered.
func (b Batch) Check() error {
	isBasic := len(b.Transfers) == 0
	for _, it := range b.Transfers {
		isBasic = isBasic || it == "basic"
	}
	switch {
	case b.Operation != Upload && b.Operation != Download:
		return &Refusal{http.StatusUnprocessableEntity, "an operation is upload or download"}
	case b.HashAlgo != "" && b.HashAlgo != "sha256":
		return &Refusal{http.StatusConflict, "this server names files by sha256 alone"}
	case !isBasic:
		return &Refusal{http.StatusUnprocessableEntity, "this server has basic transfers alone"}
	case len(b.Objects) > mostObjects:
		return &Refusal{http.StatusRequestEntityTooLarge, fmt.Sprintf("one batch names at most %d files", mostObjects)}
	}
	return nil
}

// Asked is a batch of a tenant. Room is how many bytes the tenant may get, and Most how many a file may have; Link gives how an action is done.
type Asked struct {
	Batch
	Tenant     string
	Room, Most int64
	Link       func(action, oid string) Action
}

// Answer answers a batch.
func (s *Store) Answer(b Asked) Answer {
	answer := Answer{"basic", "sha256", []Reply{}}
	for _, it := range b.Objects {
		reply := Reply{Object: it}
		actions, err := s.actions(&b, it)
		if err != nil {
			refusal := Refused(err)
			reply.Error = &Failure{refusal.Status, refusal.Why}
		}
		for _, name := range actions {
			if reply.Actions == nil {
				reply.Authenticated, reply.Actions = true, map[string]Action{}
			}
			reply.Actions[name] = b.Link(name, it.OID)
		}
		answer.Objects = append(answer.Objects, reply)
	}
	return answer
}

// actions gives what a client does with a file, which is nothing where it is to be sent and is there. What is to be sent takes room.
func (s *Store) actions(b *Asked, of Object) ([]string, error) {
	err := s.Verify(b.Tenant, of)
	if b.Operation == Download {
		if err != nil {
			return nil, err
		}
		return []string{Download}, nil
	}
	switch {
	case err == nil:
		return nil, nil
	case !errors.Is(err, ErrMissing) && !errors.Is(err, ErrSize):
		return nil, err
	case of.Size < 0:
		return nil, ErrSize
	case of.Size > b.Most:
		return nil, ErrLarge
	case of.Size+Beside > b.Room:
		return nil, ErrRoom
	}
	b.Room -= of.Size + Beside
	return []string{Upload, Verify}, nil
}
