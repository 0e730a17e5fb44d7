package receivepack

import "time"

// aliveEvery is after how long a client that waits for its report is sent an empty packet, as git sends it: what stands between both may end a
// connection over which nothing comes, and the report would be lost.
var aliveEvery = 5 * time.Second

// keepAlive sends such packets until the call that it gives, if the client takes them.
func (p *push) keepAlive() (end func()) {
	if !p.can["side-band-64k"] || !p.mayReport() {
		return func() {}
	}
	over, ended := make(chan struct{}), make(chan struct{})
	go func() {
		defer close(ended)
		p.sayAlive(over)
	}()
	return func() {
		close(over)
		<-ended
	}
}

// write lets one goroutine at a time write to the client, and sends what it wrote.
func (p *push) write(do func()) {
	p.saying.Lock()
	defer p.saying.Unlock()
	do()
	_ = p.out.Flush()
}

func (p *push) sayAlive(over <-chan struct{}) {
	ticker := time.NewTicker(aliveEvery)
	defer ticker.Stop()
	for {
		select {
		case <-over:
			return
		case <-ticker.C:
			p.write(func() { _, _ = p.out.Raw([]byte("0005\x01")) })
		}
	}
}
