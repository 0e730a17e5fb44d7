// Package pack reads packs that clients send, in a quarantine and with limits from the first byte of each entry on, and writes
// packs for them: gitformat-pack(5).
package pack

import "fmt"

// Limits bound what one pack may cost.
type Limits struct {
	PackBytes     int64 // of the pack as it is sent
	ObjectBytes   int64 // of one object, inflated
	Bytes         int64 // of all objects together, inflated
	Objects       int64
	DeltaDepth    int
	WaitingDeltas int // that wait at once for a base that comes later
	// MayGrow is asked before so many bytes more are written to the temporary file, or taken by the entries of the pack. An error of it ends
	// the pack; nil means no such question.
	MayGrow func(bytes int64) error
}

// Usual are limits that any repository meets that a tenant can keep.
var Usual = Limits{
	PackBytes: 4 << 30, ObjectBytes: 65 << 20, Bytes: 8 << 30, Objects: 4_194_304, DeltaDepth: 4095, WaitingDeltas: 1 << 20,
}

// Refused is what is wrong with a pack, in a sentence for who sent it.
type Refused struct{ Why string }

func (r Refused) Error() string { return r.Why }

var (
	errCut   = Refused{"the pack is cut off"}
	errDelta = wrong("a delta does not fit its base")
)

func wrong(why string) error { return Refused{"the pack is malformed: " + why} }

func tooLong(most int64) error {
	return Refused{fmt.Sprintf("an object has more than %d bytes, which gitpool does not keep", most)}
}

func tooMuch(what string, most int64) error {
	return Refused{fmt.Sprintf("%s has more than %d bytes, the limit of this server", what, most)}
}
