package main

import (
	"encoding/binary"
	"errors"

	"capvet.invalid/capvet"
)

// A guess is what the bytes of a direction may be that is no stream of messages in the form that the guard reads. It is
// that of `capvet explain`.
type guess string

const (
	gzipBytes     guess = "gzip"
	tlsBytes      guess = "tls"
	textBytes     guess = "text"
	packedBytes   guess = "packed"   // and the guard reads them as they are
	unpackedBytes guess = "unpacked" // and the guard reads them as packed
)

// guessOf returns what a direction may have sent whose message of this number is wrong, or nothing. Only the first bytes give a
// format away.
func guessOf(wrong error, message uint64, isPacked bool) guess {
	var frame *capvet.FrameError
	var refusal *capvet.Refusal
	switch {
	case message > 0:
		return ""
	case errors.As(wrong, &frame) && frame.Reason == capvet.ReasonTooManySegments:
		// (the first four bytes say so many segments, less one)
		head := binary.LittleEndian.AppendUint32(nil, uint32(frame.Segments-1))
		if isPacked {
			return guessUnpacked(head)
		}
		return guessPlain(head)
	case isPacked && errors.As(wrong, &refusal) && refusal.Reason == capvet.ReasonNoRoot:
		// (the table of a stream that isn't packed unpacks to messages without words)
		return unpackedBytes
	}
	return ""
}

// guessPlain returns what bytes may be that begin with these four.
func guessPlain(head []byte) guess {
	switch {
	case head[0] == 0x1f && head[1] == 0x8b && head[2] == 8:
		return gzipBytes
	case head[0] >= 20 && head[0] <= 23 && head[1] == 3 && head[2] <= 4:
		return tlsBytes
	case isText(head):
		return textBytes
	case head[0]&0x8e == 0 && head[0]&0x70 != 0 && head[1] != 0:
		// (a tag for a table of at most 256 segments)
		return packedBytes
	}
	return ""
}

// guessUnpacked returns what bytes may be whose first word, unpacked, begins with these four. Their own first byte was its tag.
func guessUnpacked(head []byte) guess {
	switch {
	case head[0] == 0x8b && head[1] == 8:
		return gzipBytes
	case head[0] == 0 && head[1] == 3 && head[2] <= 4 && head[3] == 0:
		return tlsBytes
	}
	return ""
}

// isText reports whether bytes are of text, and not a packed table and a root pointer that could be such.
func isText(head []byte) bool {
	if head[0] == '0' && head[3] == 'P' {
		return false
	}
	for _, b := range head {
		if b != '\t' && b != '\n' && b != '\r' && (b < ' ' || b > '~') {
			return false
		}
	}
	return true
}
