package limits

// Passed is a limit of a stream or of its answers that was passed, as a sentence for the client.
type Passed string

// Error gives the sentence, with the number under which docs/FAULTS.md has more.
func (p Passed) Error() string { return "a limit is passed: " + string(p) + " (fault 25)" }

// What a stream over ssh, or an answer, is refused for.
const (
	ErrStreamBytes     = Passed("a stream has at most as many bytes as `stream-bytes` says; what came after its last checkpoint is dropped")
	ErrStreamAge       = Passed("the stream was open for longer than `stream-age` says; what came after its last checkpoint is dropped")
	ErrQuota           = Passed("the repository has as many bytes as its quota allows; what came after the stream's last checkpoint is dropped")
	ErrSilent          = Passed("nothing came for as long as `frame-idle` says; what came after the last checkpoint of a stream is dropped")
	ErrStreamsOfUser   = Passed("this user has as many streams open as `streams-by-user` says; try again")
	ErrStreamsOfTenant = Passed("the repository has as many streams open or waiting as `streams-by-tenant` says; try again")
	ErrAnswers         = Passed("as many bytes of answers wait until this user takes them as `answer-bytes` says; take them and try again")
	ErrAnswer          = Passed("the answer has more bytes than `answer-bytes` says")
)

// EnterStream counts a stream of a user and a tenant, and gives the call that ends it.
func (l *Limits) EnterStream(user, tenant string) (leave func(), err error) {
	values := l.Get()
	if !l.take("streams of user "+user, values.StreamsByUser) {
		return nil, ErrStreamsOfUser
	}
	leaveUser := l.leaver("streams of user " + user)
	if !l.take("streams of tenant "+tenant, values.StreamsByTenant) {
		leaveUser()
		return nil, ErrStreamsOfTenant
	}
	leaveTenant := l.leaver("streams of tenant " + tenant)
	return func() { leaveUser(); leaveTenant() }, nil
}

// MayWait is ErrAnswers where as many bytes of answers wait for a user as may.
func (l *Limits) MayWait(user string) error {
	most := l.Get().AnswerBytes
	l.mutex.Lock()
	defer l.mutex.Unlock()
	if l.answers[user] >= most {
		return ErrAnswers
	}
	return nil
}

// Wait counts an answer that waits until a user takes it, and gives the call that counts it no more. It is ErrAnswer or ErrAnswers where it has more
// bytes than may wait, alone or with those that wait already; the answer has to be dropped then.
func (l *Limits) Wait(user string, bytes int) (taken func(), err error) {
	most, size := l.Get().AnswerBytes, int64(bytes)
	l.mutex.Lock()
	defer l.mutex.Unlock()
	switch {
	case size > most:
		return nil, ErrAnswer
	case l.answers[user]+size > most:
		return nil, ErrAnswers
	}
	l.answers[user] += size
	return func() { l.taken(user, size) }, nil
}

func (l *Limits) taken(user string, size int64) {
	l.mutex.Lock()
	defer l.mutex.Unlock()
	l.answers[user] -= size
	if l.answers[user] == 0 {
		delete(l.answers, user)
	}
}
