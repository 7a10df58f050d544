package capvet_test

import (
	"bytes"
	"errors"
	"strings"
	"testing"

	"capvet.invalid/capvet"
)

func TestExplain(t *testing.T) {
	for _, test := range []struct {
		name  string
		b     []byte
		l     *capvet.Limits
		lines string
	}{
		{"the root", framed(1 << 34), nil, "  path /\n  byte 8 of the message\n" +
			"  pointer 0000000004000000 struct, offset 0, data words 4, pointers 0\n  target 0:1 to 0:4, words 4\n" +
			"  leads into segment 0, words 1\n  reason the target runs past the end of its segment\n"},
		{"no root", framed(), nil,
			"  reason segment 0 has no words, so the message has no root pointer\n"},
		{"an amplified list", amplified, nil, "  path /\n  byte 8 of the message\n" +
			"  pointer 0100000010800000 list of empty elements, offset 0, elements 4098\n  target 0:1, words 0\n" +
			"  leads into segment 0, words 1\n  charge up to here 4098 words, limit 4097 words\n" +
			"  reason the charge up to this pointer and its target is more than the limit\n"},
		{"a limit of the call", framed(1<<48, 1<<48, 0), with(capvet.Limits{Depth: 1}), "  path /p0\n  byte 16 of the message\n" +
			"  pointer 0000000000000100 struct, offset 0, data words 0, pointers 1\n  target 0:2 to 0:2, words 1\n" +
			"  leads into segment 0, words 3\n  level 2, limit 1\n" +
			"  reason the target is at a deeper level than the limit allows\n"},
	} {
		refusal := refused(t, test.b, test.l)
		if lines := refusal.Explain(); lines != test.lines {
			t.Errorf("%s: want %q, got %q", test.name, test.lines, lines)
		}
		// (the bytes of a Scanner are those of the refusal)
		s := capvet.NewScanner(bytes.NewReader(join(test.b, null)), test.l)
		if s.Scan() || !errors.As(s.Err(), &refusal) || refusal.Explain() != test.lines {
			t.Errorf("%s: by a Scanner %q", test.name, refusal.Explain())
		}
	}
}

// refused returns the refusal of a message.
func refused(t *testing.T, b []byte, l *capvet.Limits) *capvet.Refusal {
	t.Helper()
	_, err := capvet.Vet(b, l)
	var refusal *capvet.Refusal
	if !errors.As(err, &refusal) {
		t.Fatal(err)
	}
	return refusal
}

// A pointer into a second segment, to a struct of two pointers to one struct.
var farShared = join([]byte{1, 0, 0, 0, 1, 0, 0, 0, 4, 0, 0, 0, 0, 0, 0, 0}, framed(2 | 1<<32)[8:],
	framed(2<<48, 1<<2|1<<32, 1<<32, 7)[8:])

func TestExplainAnOverlap(t *testing.T) {
	const reason = "  reason the pointer uses a word twice, the root word, or one that an earlier pointer uses; " +
		"--exclusive forbids all three\n"
	for _, test := range []struct {
		name  string
		b     []byte
		lines string
	}{
		{"two pointers", sample("shared.bin"), "  path /p1\n  byte 24 of the message\n" +
			"  pointer 0000000001000000 struct, offset 0, data words 1, pointers 0\n  target 0:3 to 0:3, words 1\n" +
			"  leads into segment 0, words 4\n" + reason + "  first used by /p0 at 0:1\n"},
		{"the root word", framed(1<<48, 0xfffffff8|1<<32), "  path /p0\n  byte 16 of the message\n" +
			"  pointer f8ffffff01000000 struct, offset -2, data words 1, pointers 0\n  target 0:0 to 0:0, words 1\n" +
			"  leads into segment 0, words 2\n" + reason},
		{"another segment", farShared,
			"  path /p1\n  byte 40 of the message\n" +
				"  pointer 0000000001000000 struct, offset 0, data words 1, pointers 0\n  target 1:3 to 1:3, words 1\n" +
				"  leads into segment 1, words 4\n" + reason + "  first used by /p0 at 1:1\n"},
	} {
		if lines := refused(t, test.b, exclusive(nil)).Explain(); lines != test.lines {
			t.Errorf("%s: want %q, got %q", test.name, test.lines, lines)
		}
	}
}

// The longest path has 256 steps. Its lines are found in one call, and have its first and its last steps.
func TestExplainTheLongestPath(t *testing.T) {
	lines := refused(t, framed(0xfffffffc|1<<48), with(capvet.Limits{Depth: 256})).Explain()
	eight := strings.Repeat("/p0", 8)
	if !strings.HasPrefix(lines, "  path "+eight+"/.. 240 steps .."+eight+"\n") {
		t.Errorf("%q", lines)
	}
}
