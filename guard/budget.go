package main

import "sync/atomic"

// budget bounds the bytes of buffers together: of all buffers, or of those of one peer.
type budget struct {
	most  int64
	whole *budget // of which this one is a part, or nil
	used  atomic.Int64
}

// take reserves n bytes, if they are left.
func (b *budget) take(n int) bool {
	if b.used.Add(int64(n)) <= b.most && (b.whole == nil || b.whole.take(n)) {
		return true
	}
	b.used.Add(-int64(n))
	return false
}

// give returns n bytes.
func (b *budget) give(n int) {
	b.used.Add(-int64(n))
	if b.whole != nil {
		b.whole.give(n)
	}
}
