package capvet_test

import (
	"bytes"
	"errors"
	"testing"

	"capvet.invalid/capvet"
)

// The zero Message, which anybody can make, has nothing to read.
func TestZeroMessage(t *testing.T) {
	var m capvet.Message
	if m.Bytes() != nil || m.Segments() != nil || m.IsCanonical() || m.Report() != (capvet.Report{}) {
		t.Error(m)
	}
	none := &capvet.FrameError{Reason: capvet.ReasonNoMessage, Required: 8}
	_, _, err := m.Get("/")
	same(t, "Get", none, err)
	_, err = m.GetRange(make([]capvet.Node, 1), "/p*", 0)
	same(t, "GetRange", none, err)
	dst, err := m.AppendCanonical([]byte("x"))
	same(t, "AppendCanonical", none, err)
	if string(dst) != "x" {
		t.Errorf("%q", dst)
	}
}

// A message that was accepted by other limits than the default ones is read all the same.
func TestMessagesOfOtherLimits(t *testing.T) {
	deep := framed(0, 0, 0, 0, 0, 0)
	binaryPut(deep[8:], 1<<48) // five structs of one pointer each, one below the other
	for i := 1; i < 5; i++ {
		binaryPut(deep[8+8*i:], 1<<48)
	}
	for _, row := range []struct {
		what string
		b    []byte
		l    *capvet.Limits
		path string
		kind capvet.Kind
	}{
		{"a null pad", nullPad, with(capvet.Limits{AllowNonstrict: true}), "/", capvet.KindNull},
		{"an amplified list", amplified, with(capvet.Limits{AllowAmplified: true}), "/", capvet.KindValues},
		{"few levels", deep, &capvet.Limits{MessageWords: 6, Charge: 5, Depth: 5}, "/p0/p0/p0/p0", capvet.KindStruct},
	} {
		m, err := capvet.Vet(row.b, row.l)
		if err != nil {
			t.Fatal(row.what, err)
		}
		node, ok, err := m.Get(row.path)
		if node.Kind != row.kind || !ok || err != nil {
			t.Error(row.what, node, ok, err)
		}
		words, err := m.AppendCanonical(nil)
		if err != nil {
			t.Error(row.what, err)
		}
		if is, err := capvet.IsCanonicalWords(words, row.l); !is || err != nil {
			t.Error(row.what, is, err)
		}
	}
}

func binaryPut(b []byte, word uint64) {
	copy(b, framed(word)[8:])
}

// A reader needs the larger of two sums, for each reading, and never less than its defaults.
func TestReaderLimits(t *testing.T) {
	chain := make([]uint64, 100) // structs of one pointer each, one below the other
	for i := range chain[:99] {
		chain[i] = 1 << 48
	}
	deep, err := capvet.Vet(framed(chain...), with(capvet.Limits{Depth: 99}))
	if err != nil {
		t.Fatal(err)
	}
	contacts, unused := accepted(t, sample("contacts.bin")), accepted(t, framed(make([]uint64, 1000)...))
	for _, row := range []struct {
		what     string
		m        capvet.Message
		readings int
		words    uint64
		nesting  uint32
		limits   capvet.ReaderLimits
	}{
		{"contacts", contacts, 1, 1175, 23, capvet.ReaderLimits{TraverseLimit: 64 << 20, DepthLimit: 64}},
		{"contacts, often", contacts, 10000, 11750000, 23, capvet.ReaderLimits{TraverseLimit: 94000000, DepthLimit: 64}},
		{"words that nothing leads to", unused, 2, 2000, 1, capvet.ReaderLimits{TraverseLimit: 64 << 20, DepthLimit: 64}},
		{"99 levels", deep, 1, 299, 199, capvet.ReaderLimits{TraverseLimit: 64 << 20, DepthLimit: 199}},
	} {
		report := row.m.Report()
		if words, nesting := report.ReaderWords(row.readings), report.ReaderNesting(); words != row.words || nesting != row.nesting {
			t.Errorf("%s: %d words, %d levels", row.what, words, nesting)
		}
		b, limits := row.m.ForReader(row.readings)
		if !bytes.Equal(b, row.m.Bytes()) || limits != row.limits {
			t.Errorf("%s: %d bytes, %+v", row.what, len(b), limits)
		}
	}
}

func TestClones(t *testing.T) {
	b := join(null)
	m := accepted(t, b).Clone()
	_, err := capvet.Vet(cycle, nil)
	var refusal *capvet.Refusal
	if !errors.As(err, &refusal) {
		t.Fatal(err)
	}
	refused := join(refusal.Unvetted())
	kept := refusal.Clone()
	b[8]++
	if !bytes.Equal(m.Bytes(), null) || &kept.Unvetted()[0] == &refusal.Unvetted()[0] || !bytes.Equal(kept.Unvetted(), refused) {
		t.Error(m.Bytes(), kept.Unvetted())
	}
	same(t, "a clone", refusal, kept)
	if kept.Path() != refusal.Path() || kept.Explain() != refusal.Explain() || kept.Explain() == "" {
		t.Error(kept.Path(), kept.Explain())
	}
}

func TestIsCanonical(t *testing.T) {
	for _, name := range []string{"contacts.bin", "shared.bin"} {
		m := accepted(t, sample(name))
		words, err := m.AppendCanonical(nil)
		if err != nil || m.IsCanonical() {
			t.Fatal(name, err, m.IsCanonical())
		}
		again, err := capvet.VetWords(words, nil)
		if err != nil || !again.IsCanonical() || !bytes.Equal(again.Bytes()[8:], words) {
			t.Error(name, err)
		}
		words[len(words)-1]++
		if is, err := capvet.IsCanonicalWords(words[:len(words)-8], nil); is {
			t.Error(name, err)
		}
	}
}

// A message of separate segments is vetted as the frame of them.
func TestVetSegments(t *testing.T) {
	for _, b := range [][]byte{null, cycle, nullPad, many(512), many(511), many(2), sample("contacts-many-segments.bin"), make([]byte, 8)} {
		segments, err := capvet.Segments(b)
		if err != nil {
			t.Fatal(err)
		}
		for _, l := range []*capvet.Limits{nil, exclusive(nil), with(capvet.Limits{AllowNonstrict: true})} {
			want, wantErr := capvet.Vet(b, l)
			m, err := capvet.VetSegments(segments, l)
			same(t, "VetSegments", wantErr, err)
			if !bytes.Equal(m.Bytes(), want.Bytes()) || m.Report() != want.Report() || len(m.Segments()) != len(want.Segments()) {
				t.Error(m.Report(), want.Report())
			}
		}
	}
	above := with(capvet.Limits{Charge: 1<<28 + 1})
	for _, row := range []struct {
		what     string
		segments [][]byte
		l        *capvet.Limits
		want     error
	}{
		{"none", nil, nil, &capvet.FrameError{Reason: capvet.ReasonNoMessage}},
		{"513", make([][]byte, 513), nil, &capvet.FrameError{Reason: capvet.ReasonTooManySegments, Segments: 513}},
		{"a part of a word", [][]byte{null[8:], null[:7]}, nil, &capvet.FrameError{Reason: capvet.ReasonBadSegment, Segment: 1}},
		{"too many words", [][]byte{null, null}, with(capvet.Limits{MessageWords: 3}), &capvet.FrameError{Reason: capvet.ReasonTooLarge, Words: 4}},
		{"limits", nil, above, &capvet.LimitsError{Limits: *above}},
	} {
		_, err := capvet.VetSegments(row.segments, row.l)
		same(t, row.what, row.want, err)
	}
}
