//go:build go1.21

package capvet_test

import (
	"bytes"
	"log/slog"
	"strings"
	"testing"

	"capvet.invalid/capvet"
)

func TestLogValues(t *testing.T) {
	var text bytes.Buffer
	log := slog.New(slog.NewTextHandler(&text, nil))
	_, err := capvet.Vet(null[:9], nil)
	_, trailing := capvet.Vet(join(null, null[:8]), nil)
	_, segment := capvet.VetSegments([][]byte{null[:1]}, nil)
	log.Info("", "broken", err, "trailing", trailing, "segment", segment, "refused", refused(t, framed(1<<48, 1<<34), nil), "many", refused(t, many(512), nil),
		"accepted", accepted(t, null).Report())
	want := ` broken.message=0 broken.offset=0 broken.verdict=broken broken.reason=Truncated broken.required=16 ` +
		`trailing.message=0 trailing.offset=0 trailing.verdict=broken trailing.reason=Trailing trailing.length=16 trailing.trailing_bytes=8 ` +
		`segment.message=0 segment.offset=0 segment.verdict=broken segment.reason=BadSegment segment.segment=0 ` +
		`refused.message=0 refused.offset=0 refused.length=24 refused.verdict=refused refused.reason=OutOfSegment ` +
		`refused.segment=0 refused.word=1 refused.pointer=2 refused.path=/p0 ` +
		`many.message=0 many.offset=0 many.length=2064 many.verdict=refused many.reason=ManySegments ` +
		`accepted.length=16 accepted.segments=1 accepted.words=1 accepted.charge=0 accepted.depth=0 accepted.pointers=1 ` +
		"accepted.capabilities=0\n"
	if !strings.HasSuffix(text.String(), want) {
		t.Errorf("want %q, got %q", want, text.String())
	}
}
