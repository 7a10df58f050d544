package main

import "syscall"

const (
	// small is the size of the buffer of a direction in which little moves. It isn't part of the budget.
	small = 4 << 10
	// ample is the largest size of a buffer that holds less than a message.
	ample = 64 << 10
	// mapped is the least size of a buffer that is mapped, and not allocated: its memory is free as soon as a larger one takes its
	// place. (48 messages of 64 MiB, within 256 MiB of the budget, took 392 MiB when the collector of garbage freed their buffers)
	mapped = 256 << 10
)

// buffer holds what was read and isn't passed on.
type buffer struct {
	budget *budget
	bytes  []byte // of its whole size
	length int    // how many of them are held
	isMap  bool   // whether the bytes are mapped
}

func newBuffer(b *budget) buffer {
	return buffer{budget: b, bytes: make([]byte, small)}
}

// held returns the bytes that are held.
func (b *buffer) held() []byte { return b.bytes[:b.length] }

// free returns where to read to.
func (b *buffer) free() []byte { return b.bytes[b.length:] }

// drop removes the first n bytes.
func (b *buffer) drop(n int) {
	if n > 0 {
		b.length = copy(b.bytes, b.bytes[n:b.length])
	}
}

// resize moves what is held into a buffer of this size. It reports whether the budget has it.
func (b *buffer) resize(size int) bool {
	if size > small && !b.budget.take(size) {
		return false
	}
	old, wasMap := b.bytes, b.isMap
	b.allocate(size)
	copy(b.bytes, old[:b.length])
	if wasMap {
		syscall.Munmap(old)
	}
	if len(old) > small {
		b.budget.give(len(old))
	}
	return true
}

// allocate replaces the bytes by zeros.
func (b *buffer) allocate(size int) {
	if b.isMap = size >= mapped; b.isMap {
		var err error
		if b.bytes, err = syscall.Mmap(-1, 0, size, syscall.PROT_READ|syscall.PROT_WRITE, syscall.MAP_ANON|syscall.MAP_PRIVATE); err == nil {
			return
		}
		// (a system allows so many mappings)
		b.isMap = false
	}
	b.bytes = make([]byte, size)
}

// fit makes space for more of a message of this length, whatever of it is there already. It grows with the bytes that have
// come, and not with what is announced. It reports whether the budget has the space.
func (b *buffer) fit(length int) bool {
	if b.length < len(b.bytes) {
		return true
	}
	size := 2 * len(b.bytes)
	if size < ample {
		size = ample
	}
	if size > length {
		size = length
	}
	return b.resize(size)
}

// widen gives a buffer that one read filled a greater size, if the budget has it.
func (b *buffer) widen() {
	if len(b.bytes) < ample {
		b.resize(4 * len(b.bytes))
	}
}

// isWide reports whether shrink makes the buffer small.
func (b *buffer) isWide() bool {
	return b.length == 0 && len(b.bytes) > small
}

// shrink makes an empty buffer small.
func (b *buffer) shrink() {
	if b.isWide() {
		b.resize(small)
	}
}

// close returns the space to the budget.
func (b *buffer) close() {
	b.length = 0
	b.shrink()
	b.bytes = nil
}
