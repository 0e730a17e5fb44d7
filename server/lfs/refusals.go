package lfs

import (
	"errors"
	"io"
	"net/http"
	"syscall"

	"gitpoold/dailyquota"
	"gitpoold/limits"
	"gitpoold/tenants"
)

// Refusal is a sentence for a client, with its number of http.
type Refusal struct {
	Status int
	Why    string
}

func (r *Refusal) Error() string { return r.Why }

// The refusals.
var (
	ErrLeaving   = &Refusal{http.StatusServiceUnavailable, "this repository is being removed; if that failed, its operator has to remove it again"}
	ErrMissing   = &Refusal{http.StatusNotFound, "there is no such file"}
	ErrOID       = &Refusal{http.StatusUnprocessableEntity, "a file is named by its SHA-256 in 64 small hexadecimal digits"}
	ErrSize      = &Refusal{http.StatusUnprocessableEntity, "the file has another number of bytes"}
	ErrLength    = &Refusal{http.StatusLengthRequired, "an upload says by Content-Length how many bytes it has"}
	ErrLarge     = &Refusal{http.StatusRequestEntityTooLarge, "a limit is passed: a file may have as many bytes as `lfs-bytes` says (fault 25)"}
	ErrCut       = &Refusal{http.StatusBadRequest, "the file is cut off; nothing of it was kept"}
	ErrDigest    = &Refusal{http.StatusUnprocessableEntity, "the file has other bytes than its name says; nothing of it was kept"}
	ErrRoom      = &Refusal{http.StatusInsufficientStorage, "a limit is passed: `quota` or `user-bytes` has no room for the file (fault 25)"}
	ErrLocked    = &Refusal{http.StatusConflict, "the path is locked already"}
	ErrNoLock    = &Refusal{http.StatusNotFound, "there is no such lock"}
	ErrOthers    = &Refusal{http.StatusForbidden, "the lock is another user's; `git lfs unlock --force` takes it all the same"}
	ErrPath      = &Refusal{http.StatusUnprocessableEntity, "a path of a lock has 1 to 1024 bytes of UTF-8 without control characters"}
	ErrManyLocks = &Refusal{http.StatusInsufficientStorage, "a limit is passed: a repository has at most 10000 locks (fault 25)"}
	errWords     = &Refusal{http.StatusRequestEntityTooLarge, "the words of a client of Git LFS have at most a megabyte"}
	errShort     = &Refusal{http.StatusBadRequest, "the request is cut off"}
	errFull      = &Refusal{http.StatusInsufficientStorage, "the server's disk is full; nothing was kept"}
	errFailed    = &Refusal{http.StatusInternalServerError, "the server could not do this; its log says why"}
)

// Refused gives what a client is told of an error.
func Refused(err error) *Refusal {
	var refusal *Refusal
	switch {
	case errors.As(err, &refusal):
		return refusal
	case errors.As(err, new(*http.MaxBytesError)):
		return errWords
	case errors.Is(err, io.ErrUnexpectedEOF):
		return errShort
	case errors.Is(err, limits.ErrLines), errors.Is(err, dailyquota.ErrBytes), errors.Is(err, dailyquota.ErrChild):
		return &Refusal{http.StatusTooManyRequests, err.Error()}
	case errors.Is(err, tenants.ErrFull), errors.As(err, new(limits.Passed)):
		return &Refusal{http.StatusInsufficientStorage, err.Error()}
	case errors.Is(err, syscall.ENOSPC), errors.Is(err, syscall.EDQUOT), errors.Is(err, syscall.EFBIG):
		return errFull
	}
	return errFailed
}
