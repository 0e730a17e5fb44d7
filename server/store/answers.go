package store

import (
	"sync"

	"gitpoold/frames"
	"gitpoold/idempotency"
)

// How the answers of streams with tokens are kept stands in this file alone.

// keptAnswers are the answers of streams with tokens. `keeping` has the Ends whose answers are not among them yet.
type keptAnswers struct {
	answers *idempotency.Kept
	keeping sync.WaitGroup
	log     *wal
}

// Keep lets what the stream is answered be kept, where it ends well: `before` is what it was answered so far, and its token. Only a stream
// without a last piece may be kept.
func (st *Stream) Keep(before idempotency.Answer) {
	st.mutex.Lock()
	defer st.mutex.Unlock()
	st.kept = &before
}

// setEnded notes that the End is in the journal. A save waits until its answer is kept.
func (st *Stream) setEnded() {
	st.isEnded = true
	if st.kept != nil {
		st.store.keeping.Add(1)
	}
}

// noted gives the steps of an End as they stand in the journal: with what is kept.
func (st *Stream) noted(steps []frames.Step) []frames.Step {
	if st.kept == nil {
		return steps
	}
	noted := append([]frames.Step(nil), steps...)
	noted[len(noted)-1].Body = st.kept.Body()
	return noted
}

// keep keeps the answer to an End that was sent, if that went well and is the one that is told. A save may wait for it. Where the child has died, or
// the End is being taken back, another child may carry it out, and keepAgain keeps its answer.
func (st *Stream) keep(told []frames.Answer, isTold bool) {
	if st.kept == nil {
		return
	}
	defer st.store.keeping.Done()
	if last := len(told) - 1; isTold && told[last].Status == frames.Ok {
		st.store.answers.Add(st.tenant, st.kept.With(told[last].Reply))
	}
}

// keepAgain keeps what a record of the journal says, which another child has carried out.
func (k *keptAnswers) keepAgain(step frames.Step, told frames.Answer) {
	if told.Status != frames.Ok {
		return
	}
	if step.Kind == frames.Remove {
		k.answers.Put(step.Tenant, nil)
	}
	if it, is := idempotency.Parse(step.Body); is && step.Kind == frames.End {
		k.answers.Add(step.Tenant, it.With(told.Reply))
	}
}

// dropTokens forgets the answers to Ends that were taken back.
func (k *keptAnswers) dropTokens(found fate) {
	for _, step := range found.takenEnds {
		if it, is := idempotency.Parse(step.Body); is {
			k.answers.Drop(step.Tenant, it.Token)
		}
	}
}

// saveAnswers writes the answers of all streams whose Ends the child has carried out. The child, which nobody else uses, has answered.
func (k *keptAnswers) saveAnswers() error {
	k.keeping.Wait()
	return k.answers.Save()
}

// Kept gives what a tenant's stream with a token was answered, if it ended well and that is kept.
func (k *keptAnswers) Kept(tenant, token string) (idempotency.Answer, bool) {
	return k.answers.Find(tenant, token)
}

// Answers gives all answers that are kept of a tenant.
func (k *keptAnswers) Answers(tenant string) []idempotency.Answer { return k.answers.Of(tenant) }

// PutAnswers keeps the answers of a tenant that comes from another store. They last when it returns nil.
func (k *keptAnswers) PutAnswers(tenant string, all []idempotency.Answer) error {
	if len(all) == 0 && len(k.answers.Of(tenant)) == 0 {
		return nil
	}
	k.answers.Put(tenant, all)
	if err := k.answers.Save(); err != nil {
		return err
	}
	return k.log.bringAnswers(tenant, all)
}

// takeBroughtAnswer keeps what a stream of such a tenant was answered, if the log brought that.
func (k *keptAnswers) takeBroughtAnswer(step frames.Step) (isAnswer bool) {
	if isAnswer = len(step.Body) > 0 && step.Body[0] == broughtAnswer; isAnswer {
		if it, is := idempotency.Parse(step.Body[1:]); is {
			k.answers.Add(step.Tenant, it)
		}
	}
	return isAnswer
}
