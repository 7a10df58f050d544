package main

import (
	"errors"
	"io"
	"runtime"
	"time"

	"capvet.invalid/capvet"
)

// turns is how many large buffers are vetted at one time. A call keeps its thread until it returns, and small messages need
// not wait for large ones.
var turns = make(chan struct{}, runtime.GOMAXPROCS(0))

// vetter vets the messages of one direction and counts them.
type vetter struct {
	limits  *capvet.Limits
	metrics *directionMetrics
}

// await waits for a turn, if a walk over b may take long. The function that it returns ends the turn.
func (v vetter) await(b []byte) (leave func()) {
	if len(b) <= ample && !v.limits.AllowAmplified {
		return func() {}
	}
	turns <- struct{}{}
	return func() { <-turns }
}

// path returns the path to the pointer that err names. It is empty if it names none.
func (v vetter) path(err error) string {
	var refusal *capvet.Refusal
	if !errors.As(err, &refusal) {
		return ""
	}
	defer v.await(refusal.Unvetted())()
	return refusal.Path()
}

// all vets the messages that b starts with. It returns how many are accepted, and the bytes of their frames. The error is
// that of the message after them, and nil if there is none.
func (v vetter) all(b []byte) (count, length int, err error) {
	defer v.await(b)()
	// (a clock for each message would cost more than the vetting)
	before := time.Now()
	count, length, err = capvet.VetAll(b, v.limits)
	if missing(err) == 0 || count > 0 {
		v.metrics.vetSeconds.Observe(time.Since(before).Seconds())
	}
	return count, length, err
}

// scanner returns a scanner for packed messages that refuses what all refuses.
func (v vetter) scanner(r io.Reader) *capvet.Scanner {
	return capvet.NewPackedScanner(r, v.limits)
}

// missing returns how many bytes the message has at least of which err says that a part of it is there. It is 0 if err
// says something else.
func missing(err error) int {
	var frame *capvet.FrameError
	if errors.As(err, &frame) && frame.Reason == capvet.ReasonTruncated {
		return int(frame.Required)
	}
	return 0
}
