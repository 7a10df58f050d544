package capvet_test

import (
	"encoding/binary"
	"strings"
	"testing"

	"capvet.invalid/capvet"
)

// framed returns the message of one segment of these words.
func framed(words ...uint64) []byte {
	b := binary.LittleEndian.AppendUint64(nil, uint64(len(words))<<32)
	for _, word := range words {
		b = binary.LittleEndian.AppendUint64(b, word)
	}
	return b
}

func TestPath(t *testing.T) {
	for _, test := range []struct {
		name string
		b    []byte
		l    *capvet.Limits
		path string
	}{
		{"the root", framed(1 << 34), nil, "/"},
		{"a pointer of a struct", framed(2<<48, 0, 1<<34), nil, "/p1"},
		{"a pointer of an element", framed(1|7<<32|4<<35, 2<<2|2<<48, 0, 0, 0, 1<<34), nil, "/i1/p1"},
		{"the longest path", framed(0xfffffffc | 1<<48), with(capvet.Limits{Depth: 256}), strings.Repeat("/p0", 256)},
		{"not strict", framed(1<<48, 2|2<<3, 0), nil, "/p0"},
		{"no root", framed(), nil, ""},
	} {
		refusal := refused(t, test.b, test.l)
		if path := refusal.Path(); path != test.path {
			t.Errorf("%s: %q, want %q", test.name, path, test.path)
		}
	}
}

func TestPathOfAnOverlap(t *testing.T) {
	// (two pointers to one struct of one word)
	b := framed(2<<48, 1<<2|1<<32, 1<<32, 7)
	refusal := refused(t, b, exclusive(nil))
	if refusal.Reason != capvet.ReasonOverlap {
		t.Fatal(refusal)
	}
	if path := refusal.Path(); path != "/p1" {
		t.Errorf("%q", path)
	}
	if path := refusal.EarlierPath(); path != "/p0" {
		t.Errorf("%q of the earlier pointer", path)
	}
	if path := (&capvet.Refusal{Pointer: 1}).Path(); path != "" {
		t.Errorf("%q of no bytes", path)
	}
	if path := (&capvet.Refusal{Pointer: 1}).EarlierPath(); path != "" {
		t.Errorf("%q of the earlier pointer of no bytes", path)
	}
}

func TestNoPointerUsesTheRootWordBefore(t *testing.T) {
	b := framed(1<<48, 0xfffffff8|1<<32)
	refusal := refused(t, b, exclusive(nil))
	if refusal.Reason != capvet.ReasonOverlap {
		t.Fatal(refusal)
	}
	if path := refusal.EarlierPath(); path != "" {
		t.Errorf("%q", path)
	}
}
