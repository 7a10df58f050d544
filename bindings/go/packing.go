package capvet

// #include "calls.h"
import "C"

// packBound is the most bytes that packing n bytes gives: CAPVET_PACK_BOUND(n).
func packBound(n int) int {
	return n / 8 * 10
}

// AppendPackedWords appends words in packed form to dst. They need not be a message. After an error dst is returned as it was.
// dst may share memory with b: then the result is in new memory.
//
// The error is a *FrameError: ReasonTruncated if b is not of whole words.
//
// To send a message, use AppendPackedMessage, since some readers refuse a message that is packed as a whole.
func AppendPackedWords(dst, b []byte) ([]byte, error) {
	grown := grow(dst, b, packBound(len(b)))
	out, size := spare(grown)
	r := C.capvet_go_pack(pointer(b), C.size_t(len(b)), out, size)
	if r.answer != C.CAPVET_OK {
		return dst, &FrameError{Reason: ReasonTruncated, Required: uint64(len(b)+7) / 8 * 8}
	}
	return grown[:len(dst)+int(r.required)], nil
}

// AppendUnpackedWords unpacks b and appends the words to dst, at most max bytes of them. They need not be a message. After an
// error dst is returned as it was. dst may share memory with b: then the result is in new memory.
//
// The error is a *FrameError: ReasonTruncated if b ends inside a group, or ReasonTooLarge with the number of words.
func AppendUnpackedWords(dst, b []byte, max int) ([]byte, error) {
	r := C.capvet_go_unpack(pointer(b), C.size_t(len(b)), nil, 0)
	if r.answer != C.CAPVET_OK && r.answer != C.CAPVET_BUFFER_TOO_SMALL {
		return dst, &FrameError{Reason: Reason(r.answer)}
	}
	if max < 0 || uint64(r.required) > uint64(max) {
		return dst, &FrameError{Reason: ReasonTooLarge, Words: uint64(r.required) / 8}
	}
	grown := grow(dst, b, int(r.required))
	out, size := spare(grown)
	r = C.capvet_go_unpack(pointer(b), C.size_t(len(b)), out, size)
	return grown[:len(dst)+int(r.required)], nil
}

// AppendPackedMessage appends a message in packed form to dst. The table and each segment are packed by themselves, so
// every reader takes the result. No pointer is checked. After an error dst is returned as it was. dst may share memory
// with b: then the result is in new memory.
//
// Only Limits.MessageWords has an effect. The error is a *FrameError or a *LimitsError.
func AppendPackedMessage(dst, b []byte, l *Limits) ([]byte, error) {
	grown := grow(dst, b, packBound(len(b)))
	out, size := spare(grown)
	r := C.capvet_go_pack_message(pointer(b), C.size_t(len(b)), l.raw(whole), out, size)
	if r.answer != C.CAPVET_OK {
		return dst, errorOf(&r, nil, l.orDefault())
	}
	return grown[:len(dst)+int(r.required)], nil
}
