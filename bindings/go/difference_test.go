package capvet_test

import (
	"encoding/json"
	"testing"

	"capvet.invalid/capvet"
)

// twoSegments is a message of two segments, which begins with a null pointer.
var twoSegments = join([]byte{1, 0, 0, 0, 1, 0, 0, 0, 1, 0, 0, 0, 0, 0, 0, 0}, make([]byte, 16))

func TestFirstDifference(t *testing.T) {
	var reasons []capvet.DifferenceReason
	for _, row := range []struct {
		reason   capvet.DifferenceReason
		name     string
		b        []byte
		word     uint32
		pointers uint64
		path     string
	}{
		{capvet.DifferenceSegments, "Segments", twoSegments, 0, 0, ""},
		{capvet.DifferenceFar, "Far", framed(2|1<<3, 1<<32, 7), 0, 1, "/"},
		{capvet.DifferenceCapability, "Capability", framed(1<<32|1<<48, 7, 3|7<<32), 2, 2, "/p0"},
		{capvet.DifferenceEmptyStruct, "EmptyStruct", framed(1<<2, 0), 0, 1, "/"},
		{capvet.DifferencePlace, "Place", framed(2<<48, 1<<2|1<<32, 1<<32, 7), 2, 3, "/p1"},
		{capvet.DifferenceBits, "Bits", framed(1|1<<32|1<<35, 3), 0, 1, "/"},
		{capvet.DifferenceEmptyList, "EmptyList", framed(1|7<<32, 1<<32), 0, 1, "/"},
		{capvet.DifferenceSurplus, "Surplus", framed(1|7<<32|2<<35, 1<<2|1<<32, 5, 0), 0, 1, "/"},
		{capvet.DifferenceDataZero, "DataZero", framed(2<<32, 7, 0), 0, 1, "/"},
		{capvet.DifferencePointerNull, "PointerNull", framed(1<<32|1<<48, 7, 0), 0, 1, "/"},
		{capvet.DifferenceTrailing, "Trailing", framed(0, 0), 1, 1, ""},
	} {
		m := accepted(t, row.b)
		d, ok := m.FirstDifference()
		if !ok || m.IsCanonical() {
			t.Fatal(row.name, d, ok)
		}
		if place := (capvet.Position{Word: row.word}); d.Reason != row.reason || d.Position != place || d.Pointers != row.pointers {
			t.Errorf("%s: %+v", row.name, d)
		}
		if path := d.Path(); path != row.path {
			t.Errorf("%s: %q, want %q", row.name, path, row.path)
		}
		if want := "not canonical: " + row.name + " at " + d.Position.String(); d.String() != want {
			t.Errorf("%q, want %q", d, want)
		}
		reasons = append(reasons, d.Reason)
	}
	// (each number occurs, in the order of the header)
	for i, reason := range reasons {
		if reason != capvet.DifferenceReason(i+1) {
			t.Error(i, reason)
		}
	}
}

// A canonical message has no difference, and neither has the zero Message, which is no message.
func TestNoFirstDifference(t *testing.T) {
	for _, m := range []capvet.Message{accepted(t, framed(1<<32, 7)), {}} {
		if d, ok := m.FirstDifference(); ok || d.Path() != "" {
			t.Error(d, ok)
		}
	}
}

// A message that was accepted by other limits than the default ones has a difference all the same.
func TestFirstDifferenceOfOtherLimits(t *testing.T) {
	for _, row := range []struct {
		b    []byte
		l    *capvet.Limits
		want string
	}{
		{nullPad, with(capvet.Limits{AllowNonstrict: true}), "not canonical: Far at 0:0"},
		{framed(0xfffffffc), with(capvet.Limits{Depth: 1}), ""},
		{framed(1<<48, 1<<48, 1<<48, 0), &capvet.Limits{MessageWords: 4, Charge: 3, Depth: 3}, "not canonical: PointerNull at 0:2"},
	} {
		m, err := capvet.Vet(row.b, row.l)
		if err != nil {
			t.Fatal(err)
		}
		if d, ok := m.FirstDifference(); ok != (row.want != "") || ok && d.String() != row.want {
			t.Error(d, row.want)
		}
	}
}

func TestFirstDifferenceAllocatesNothing(t *testing.T) {
	for _, b := range [][]byte{sample("contacts.bin"), framed(1<<32, 7)} {
		m := accepted(t, b)
		if count := testing.AllocsPerRun(10, func() { m.FirstDifference() }); count != 0 {
			t.Error(count)
		}
	}
}

func TestDifferenceReasonsAsText(t *testing.T) {
	for reason := capvet.DifferenceSegments; reason <= capvet.DifferenceTrailing; reason++ {
		text, err := json.Marshal(reason)
		var again capvet.DifferenceReason
		if err != nil || string(text) != `"`+reason.String()+`"` || json.Unmarshal(text, &again) != nil || again != reason {
			t.Error(string(text), err, again)
		}
	}
	for _, name := range []string{`"Unknown"`, `"Overlap"`, `""`} {
		reason := capvet.DifferencePlace
		if err := json.Unmarshal([]byte(name), &reason); err == nil || reason != capvet.DifferencePlace {
			t.Error(name, err, reason)
		}
	}
	if text := capvet.DifferenceReason(0).String() + capvet.DifferenceReason(12).String(); text != "UnknownUnknown" {
		t.Error(text)
	}
}
