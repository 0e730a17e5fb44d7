package limits

// What a user's requests are refused for.
const (
	ErrLines  = Passed("this user's requests hold as many bytes of lines as `line-bytes` says; try again when they have ended")
	ErrSpools = Passed("this user's pushes have as many bytes in temporary files as `spool-bytes` says; try again when they have ended")
)

// Held counts bytes of one request for its user while they are held. The user "" is a visitor, who is counted by its address.
type Held struct {
	limits  *Limits
	who     string
	of      map[string]int64
	most    func(Values) int64
	refusal error
	bytes   int64
}

// Lines counts the lines of a request that begins: refs and options of a push, and what a fetch wants and has.
func (l *Limits) Lines(user, address string) *Held {
	return &Held{limits: l, who: whoIs(user, address), of: l.lines, most: func(v Values) int64 { return v.LineBytes }, refusal: ErrLines}
}

// Spool counts the temporary file of a push that begins, and the list of what its pack has.
func (l *Limits) Spool(user, address string) *Held {
	return &Held{limits: l, who: whoIs(user, address), of: l.spools, most: func(v Values) int64 { return v.SpoolBytes }, refusal: ErrSpools}
}

// Hold counts bytes, or is ErrLines or ErrSpools where the user's requests would hold too many.
func (h *Held) Hold(bytes int64) error {
	most := h.most(h.limits.Get())
	h.limits.mutex.Lock()
	defer h.limits.mutex.Unlock()
	if h.of[h.who]+bytes > most {
		return h.refusal
	}
	h.of[h.who] += bytes
	h.bytes += bytes
	return nil
}

// Free counts the bytes no more.
func (h *Held) Free() {
	h.limits.mutex.Lock()
	defer h.limits.mutex.Unlock()
	if h.of[h.who] -= h.bytes; h.of[h.who] == 0 {
		delete(h.of, h.who)
	}
	h.bytes = 0
}
