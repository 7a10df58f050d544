//go:build go1.21

package capvet

import "log/slog"

// LogValue returns the numbers of the report as attributes.
func (r Report) LogValue() slog.Value {
	return slog.GroupValue(slog.Int("length", r.Length), slog.Int("segments", r.Segments), slog.Uint64("words", r.Words),
		slog.Uint64("charge", r.Charge), slog.Uint64("depth", uint64(r.Depth)), slog.Uint64("pointers", r.Pointers),
		slog.Uint64("capabilities", r.Capabilities))
}

// LogValue returns what MarshalJSON writes, as attributes.
func (e *Refusal) LogValue() slog.Value {
	all := []slog.Attr{slog.Int("message", e.Number), slog.Int64("offset", e.Offset), slog.Int("length", e.Length),
		slog.String("verdict", "refused"), slog.String("reason", e.Reason.String())}
	if e.Pointer > 0 {
		all = append(all, slog.Uint64("segment", uint64(e.Position.Segment)), slog.Uint64("word", uint64(e.Position.Word)),
			slog.Uint64("pointer", e.Pointer), slog.String("path", e.Path()))
	}
	return slog.GroupValue(all...)
}

// LogValue returns what MarshalJSON writes, as attributes.
func (e *FrameError) LogValue() slog.Value {
	all := []slog.Attr{slog.Int("message", e.Number), slog.Int64("offset", e.Offset), slog.String("verdict", "broken"),
		slog.String("reason", e.Reason.String())}
	for _, it := range []slog.Attr{slog.Uint64("length", uint64(e.Length)), slog.Uint64("required", e.Required),
		slog.Uint64("segments", e.Segments), slog.Uint64("words", e.Words), slog.Uint64("trailing_bytes", e.TrailingBytes)} {
		if it.Value.Uint64() > 0 {
			all = append(all, it)
		}
	}
	if e.Reason == ReasonBadSegment {
		all = append(all, slog.Int("segment", e.Segment))
	}
	return slog.GroupValue(all...)
}
