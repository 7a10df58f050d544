// Package capvet checks untrusted Cap'n Proto messages without a schema, before a reader touches them.
//
// Vet answers whether bytes are one message that is safe to traverse:
//
//	message, err := capvet.Vet(b, nil)
//	var refusal *capvet.Refusal
//	if errors.As(err, &refusal) {
//		log.Printf("refused %v at %v", refusal.Reason, refusal.Position)
//	}
//
// A nil error means that b is one message and nothing else, and that a reader can follow every pointer without leaving its
// segment or looping. A full traversal then reads at most 4,096 words more than the segments have. Nothing is said
// about the schema. A function that takes a Message takes only what was vetted.
//
// Any goroutine may call at any time. The functions only read the bytes that they are passed. If something writes these
// bytes during a call, the answer means nothing and the process may be killed. So copy shared memory and mapped files
// first; then check and use the copy.
//
// A word is 8 bytes. A position is the number of a segment and a word in it, both from 0.
//
// The package calls the C library capvet through cgo, and finds it by pkg-config. The library is proved; the lines of
// this package that call it are tested. After another version of the library is installed at the same place, build
// with `go build -a`, because the build cache of Go does not look at the library.
//
// The texts of errors name the package, the reason as the program capvet prints it, and the amounts with their units.
package capvet

// #cgo pkg-config: capvet
// #include "calls.h"
import "C"

import (
	"fmt"
	"unsafe"
)

// Version returns the version of the library that is linked, such as "2.0.0".
func Version() string {
	v := uint32(C.capvet_version())
	return fmt.Sprintf("%d.%d.%d", v>>16, v>>8&0xff, v&0xff)
}

// CPUSupported reports whether this processor has what the library needs. On x86-64 it is the level x86-64-v2. If it is
// false, any other function may end the process by SIGILL, also one that worked before: it depends on the message. So a
// program calls it once, before any other function.
func CPUSupported() bool {
	return C.capvet_cpu_supported() != 0
}

// pointer returns the address of the first byte, or nil if there is none.
func pointer(b []byte) *C.uint8_t {
	if len(b) == 0 {
		return nil
	}
	return (*C.uint8_t)(unsafe.Pointer(&b[0]))
}

// spare returns the bytes between the length and the capacity of dst, with its address.
func spare(dst []byte) (*C.uint8_t, C.size_t) {
	b := dst[len(dst):cap(dst)]
	return pointer(b[:cap(b)]), C.size_t(cap(b))
}

// grow returns dst with a capacity of at least n bytes more than its length, which share no memory with b.
func grow(dst, b []byte, n int) []byte {
	if cap(dst)-len(dst) >= n && !overlap(dst[len(dst):cap(dst)], b) {
		return dst
	}
	// (of full capacity, so that append takes new memory)
	return append(dst[:len(dst):len(dst)], make([]byte, n)...)[:len(dst)]
}

// overlap reports whether two slices share memory.
func overlap(x, y []byte) bool {
	return len(x) > 0 && len(y) > 0 &&
		uintptr(unsafe.Pointer(&x[0])) <= uintptr(unsafe.Pointer(&y[len(y)-1])) &&
		uintptr(unsafe.Pointer(&y[0])) <= uintptr(unsafe.Pointer(&x[len(x)-1]))
}

// Vet checks that b is one message that is safe to traverse, and nothing else. It allocates nothing, apart from an error
// and the marks of Limits.Exclusive.
//
// The error is a *FrameError, a *Refusal or a *LimitsError. A *Refusal names the first pointer in preorder at which
// anything is wrong. The work is bounded by len(b), unless Limits.AllowAmplified is set.
func Vet(b []byte, l *Limits) (Message, error) {
	return vet(b, l, whole)
}

// VetPrefix checks the message that b begins with, as Vet does, and returns the bytes after it. They are not looked at.
//
// After a *Refusal rest is what follows the refused message. After another error it is b.
func VetPrefix(b []byte, l *Limits) (m Message, rest []byte, err error) {
	m, err = vet(b, l, prefix)
	length := len(m.bytes)
	if refusal, ok := err.(*Refusal); ok {
		length = refusal.Length
	}
	return m, b[length:], asEnd(err)
}

// vet checks bytes that are a message or begin with one.
func vet(b []byte, l *Limits, f form) (Message, error) {
	var r C.capvet_go_result
	answer(&r, b, l, f)
	return messageOf(&r, b, l)
}

// messageOf returns the message of an answer about b, or why it is not accepted.
func messageOf(r *C.capvet_go_result, b []byte, l *Limits) (Message, error) {
	if r.answer != C.CAPVET_OK {
		return Message{}, errorOf(r, b, l.orDefault())
	}
	return Message{bytes: b[:r.report.length:r.report.length], report: reportOf(&r.report)}, nil
}

// answer sets r to what the library answers about a message. (it is large, and a copy takes as long as a part of the call)
func answer(r *C.capvet_go_result, b []byte, l *Limits, f form) {
	if l == nil || !l.Exclusive {
		*r = C.capvet_go_vet(pointer(b), C.size_t(len(b)), l.raw(f))
		return
	}
	raw := l.raw(f)
	*r = C.capvet_go_frame(pointer(b), C.size_t(len(b)), raw)
	if r.answer != C.CAPVET_OK {
		return
	}
	marks := make([]uint64, r.report.length/512+1) // CAPVET_MARKS_BOUND
	*r = C.capvet_go_vet_exclusive(pointer(b), C.size_t(len(b)), raw, (*C.uint64_t)(&marks[0]), C.size_t(len(marks)))
}

// VetAll checks the messages that b starts with, one after the other, as Vet checks each of them. It returns how many are
// accepted before the first that is not, and how many bytes their frames have. It is one call of the library, so many
// small messages take less time than by Vet. It allocates nothing, apart from an error.
//
// err is nil if b ends after these messages. Otherwise it is the error of VetPrefix for the next one, b[length:], with its
// number and its offset in b: a *Refusal, a *FrameError, which is ReasonTruncated if b ends inside it, or a *LimitsError.
// With Limits.Exclusive there is a call of the library for each message.
func VetAll(b []byte, l *Limits) (count, length int, err error) {
	if l != nil && l.Exclusive {
		count, length, err = vetEach(b, l)
	} else {
		f := C.capvet_go_vet_all(pointer(b), C.size_t(len(b)), l.raw(prefix))
		count, length = int(f.count), int(f.length)
		if f.result.answer != C.CAPVET_NO_MESSAGE {
			err = errorOf(&f.result, b[length:], l.orDefault())
		}
	}
	return count, length, placed(err, count, int64(length))
}

// vetEach does what VetAll does, by a call for each message.
func vetEach(b []byte, l *Limits) (count, length int, err error) {
	for {
		m, err := vet(b[length:], l, prefix)
		if frame, ok := err.(*FrameError); ok && frame.Reason == ReasonNoMessage {
			return count, length, nil
		}
		if err != nil {
			return count, length, err
		}
		count, length = count+1, length+len(m.bytes)
	}
}

// IsCanonicalWords reports whether words without a table are the canonical form of a message: what a receiver of a
// signature asks of the words that were signed. It is true for what AppendCanonical returned with the same limits. So
// amplified words are accepted, and Limits.Charge bounds the work. The words may be one more than that. The error is one
// of VetWords. Words that are accepted are not copied.
func IsCanonicalWords(b []byte, l *Limits) (bool, error) {
	r := C.capvet_go_check_words(pointer(b), C.size_t(len(b)), l.raw(words))
	switch r.answer {
	case C.CAPVET_OK:
		return true, nil
	case C.CAPVET_NOT_CANONICAL:
		return false, nil
	case C.CAPVET_BAD_LIMITS:
		return false, &LimitsError{Limits: l.orDefault()}
	}
	_, err := VetWords(b, l.ofCopies())
	return false, err
}
