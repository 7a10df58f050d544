package capvet

// #include "calls.h"
import "C"

import (
	"strconv"
	"strings"
)

// stepsOf returns the steps of a path with one star, and which of them has it. The star is first.
func stepsOf(path string, first uint32, l *Limits) (steps []C.capvet_step, varying int, err error) {
	// (the library reports limits and paths before it reports that there are no bytes)
	_, _, err = Peek(nil, strings.Replace(path, "*", "0", 1), l)
	switch err := err.(type) {
	case *LimitsError:
		return nil, 0, err
	case *PathError:
		return nil, 0, &PathError{Path: path, Offset: err.Offset}
	}
	if !strings.Contains(path, "*") {
		return nil, 0, &PathError{Path: path, Offset: len(path)}
	}
	for at, text := range strings.Split(path[1:], "/") {
		step := C.capvet_step{kind: C.CAPVET_STEP_POINTER, number: C.uint32_t(first)}
		if text[0] == 'i' {
			step.kind = C.CAPVET_STEP_ELEMENT
		}
		if text[1:] == "*" {
			varying = at
		} else {
			number, _ := strconv.ParseUint(text[1:], 10, 32) // (the library has checked it)
			step.number = C.uint32_t(number)
		}
		steps = append(steps, step)
	}
	return steps, varying, nil
}

// PeekRange fills dst with the nodes at a path with one star, as Message.GetRange does, of a message that was not vetted. Only
// the pointers on each path are checked, and the limits apply to each path by itself.
//
// The nodes are fewer than len(dst) also if err is about the next path. If dst is empty, the limits, the path and the frame
// are checked. The error is one of Peek. A path without a star gives a *PathError at its end, and a second star one at that
// star.
func PeekRange(dst []Node, b []byte, path string, first uint32, l *Limits) (n int, err error) {
	steps, varying, err := stepsOf(path, first, l)
	if err != nil {
		return 0, err
	}
	nodes := make([]C.capvet_node, len(dst)+1) // (one more, so that there is a first one)
	r := C.capvet_go_get_range(pointer(b), C.size_t(len(b)), l.raw(whole), &steps[0], C.size_t(len(steps)), C.size_t(varying),
		&nodes[0], C.size_t(len(dst)))
	n = int(r.found)
	for k := range dst[:n] {
		dst[k] = nodeOf(&nodes[k], b)
	}
	if r.result.answer == C.CAPVET_OK || r.result.answer == C.CAPVET_NO_NODE {
		return n, nil
	}
	return n, errorOf(&r.result, nil, l.orDefault())
}
