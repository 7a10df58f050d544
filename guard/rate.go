package main

import (
	"sync"
	"time"
)

// burst is for how long a rate may be exceeded: as many units as pass in this time may come at once.
const burst = time.Second

// bucket lets units pass at a rate. Its zero value lets all pass.
type bucket struct {
	rate int64 // units a second, or 0 if there is no limit
	lock sync.Mutex
	full time.Duration // when nothing counts any more of what has passed
}

// after returns when the bucket is full again if n more units pass.
func (b *bucket) after(n int) time.Duration {
	at := now()
	if b.full > at {
		at = b.full
	}
	return at + time.Duration(float64(n)/float64(b.rate)*float64(time.Second))
}

// allow lets n units pass, unless the rate is exceeded.
func (b *bucket) allow(n int) bool {
	if b.rate == 0 {
		return true
	}
	b.lock.Lock()
	defer b.lock.Unlock()
	after := b.after(n)
	if after > now()+burst {
		return false
	}
	b.full = after
	return true
}

// spend lets n units pass, and returns how long nothing more may pass. It is not above 0 within the rate.
func (b *bucket) spend(n int) time.Duration {
	if b.rate == 0 || n == 0 {
		return 0
	}
	b.lock.Lock()
	defer b.lock.Unlock()
	b.full = b.after(n)
	return b.full - now() - burst
}

// isFull reports whether nothing counts any more.
func (b *bucket) isFull() bool {
	b.lock.Lock()
	defer b.lock.Unlock()
	return b.full <= now()
}
