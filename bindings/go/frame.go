package capvet

// #include "calls.h"
import "C"

// FrameLength returns the length in bytes of the frame that b starts with, table included. It reads the table only, and
// bytes may follow the frame. Only Limits.MessageWords has an effect.
//
// The error is a *FrameError or a *LimitsError. FrameError.Required is how many bytes are required to get further: it is a
// claim of the sender, at most 8 bytes for each word of Limits.MessageWords and 2,056 more.
func FrameLength(b []byte, l *Limits) (int, error) {
	r := C.capvet_go_frame(pointer(b), C.size_t(len(b)), l.raw(whole))
	if r.answer != C.CAPVET_OK {
		return 0, asEnd(errorOf(&r, nil, l.orDefault()))
	}
	return int(r.report.length), nil
}

// Segments returns the segments of the frame that b starts with, as slices of b. It reads the table only, and bytes may
// follow the frame. The segments have at most 268435456 words.
//
// The error is a *FrameError.
func Segments(b []byte) ([][]byte, error) {
	l := Limits{MessageWords: C.CAPVET_MAX_MESSAGE_WORDS}
	var extents [C.CAPVET_MAX_SEGMENTS]C.capvet_extent
	r := C.capvet_go_segments(pointer(b), C.size_t(len(b)), l.raw(whole), &extents[0], C.size_t(len(extents)))
	if r.answer != C.CAPVET_OK {
		return nil, errorOf(&r, nil, l)
	}
	segments := make([][]byte, r.required)
	for i := range segments {
		end := extents[i].offset + extents[i].length
		segments[i] = b[extents[i].offset:end:end]
	}
	return segments, nil
}
