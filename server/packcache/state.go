package packcache

// State is how a cache stands.
type State struct {
	IsOn                                        bool
	Packs                                       int
	Bytes                                       int64
	Hits, Near, Misses, SentBytes, Made, Failed int64
}

// State tells how the cache stands: Hits are clones that a pack answered alone, Near those that got a small one beside it.
func (c *Cache) State() (s State) {
	if c == nil {
		return s
	}
	c.mutex.Lock()
	defer c.mutex.Unlock()
	for _, it := range c.of {
		s.Packs += len(it.packs)
	}
	s.IsOn, s.Bytes = c.config.Most() > 0, c.bytes+c.reserved
	s.Hits, s.Near, s.Misses, s.SentBytes = c.counts.Hits.Load(), c.counts.Near.Load(), c.counts.Misses.Load(), c.counts.SentBytes.Load()
	s.Made, s.Failed = c.counts.Made.Load(), c.counts.Failed.Load()
	return s
}

// measure lets metrics tell how the cache stands.
func (c *Cache) measure() {
	m := c.config.Metrics
	number := func(read func(State) int64) func() float64 { return func() float64 { return float64(read(c.State())) } }
	m.Counter("gitpoold_pack_cache_hits_total", "Clones that a kept pack answered alone.", number(func(s State) int64 { return s.Hits }))
	m.Counter("gitpoold_pack_cache_near_total", "Clones that a kept pack answered with a small one beside it.",
		number(func(s State) int64 { return s.Near }))
	m.Counter("gitpoold_pack_cache_misses_total", "Whole clones for which no pack was kept, while there is a cache.",
		number(func(s State) int64 { return s.Misses }))
	m.Counter("gitpoold_pack_cache_sent_bytes_total", "Bytes of kept packs that were sent.", number(func(s State) int64 { return s.SentBytes }))
	m.Counter("gitpoold_pack_cache_made_total", "Packs that git has made for clones.", number(func(s State) int64 { return s.Made }))
	m.Counter("gitpoold_pack_cache_failed_total", "Packs for clones that were not made for an error.", number(func(s State) int64 { return s.Failed }))
	m.Gauge("gitpoold_pack_cache_packs", "Packs that are kept for clones.", number(func(s State) int64 { return int64(s.Packs) }))
	m.Gauge("gitpoold_pack_cache_bytes", "The room that packs for clones take, that of one that is being made among them.",
		number(func(s State) int64 { return s.Bytes }))
}
