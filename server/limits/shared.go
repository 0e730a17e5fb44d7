package limits

// userList is a list of refs that requests of a user hold.
type userList struct {
	who  string
	list any
}

// sharedList is how many uses of a list of a user there are, and what it counts.
type sharedList struct {
	uses  int
	bytes int64
}

// refLists counts the lists of refs that one request holds, among the answers that wait until its user takes them.
type refLists struct {
	limits *Limits
	who    string
	held   []userList
}

// whoTakes is under which name the answers of a user are counted, or of a visitor.
func whoTakes(user, address string) string {
	if user == "" {
		return whoIs(user, address)
	}
	return user
}

func (l *refLists) share(list any, bytes int64) error {
	most := l.limits.Get().AnswerBytes
	l.limits.mutex.Lock()
	defer l.limits.mutex.Unlock()
	it := userList{l.who, list}
	shared := l.limits.lists[it]
	if shared == nil {
		if l.limits.answers[l.who]+bytes > most {
			return ErrAnswers
		}
		shared = &sharedList{bytes: bytes}
		l.limits.lists[it] = shared
		l.limits.answers[l.who] += bytes
	}
	shared.uses++
	l.held = append(l.held, it)
	return nil
}

// free counts the lists no more.
func (l *refLists) free() {
	l.limits.mutex.Lock()
	defer l.limits.mutex.Unlock()
	for _, it := range l.held {
		shared := l.limits.lists[it]
		if shared.uses--; shared.uses > 0 {
			continue
		}
		delete(l.limits.lists, it)
		if l.limits.answers[l.who] -= shared.bytes; l.limits.answers[l.who] == 0 {
			delete(l.limits.answers, l.who)
		}
	}
	l.held = nil
}
