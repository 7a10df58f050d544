package capvet_test

import (
	"errors"
	"fmt"
	"math/rand"
	"reflect"
	"strconv"
	"strings"
	"testing"

	"capvet.invalid/capvet"
)

// gap is a list of three pointers: to a struct of a null pointer, null, and to a struct whose pointer is out of bounds.
var gap = []byte{0, 0, 0, 0, 6, 0, 0, 0,
	1, 0, 0, 0, 0x1e, 0, 0, 0,
	8, 0, 0, 0, 0, 0, 1, 0,
	0, 0, 0, 0, 0, 0, 0, 0,
	4, 0, 0, 0, 0, 0, 1, 0,
	0, 0, 0, 0, 0, 0, 0, 0,
	0xa0, 0x0f, 0, 0, 1, 0, 0, 0}

// oneByOne returns what GetRange should return, from Get for each path, and the nodes.
func oneByOne(b []byte, path string, first uint32, count int, l *capvet.Limits) (nodes []capvet.Node, err error) {
	most := uint64(65535)
	if strings.Contains(path, "i*") {
		most = 1<<32 - 1
	}
	for number := uint64(first); len(nodes) < count && number <= most; number++ {
		node, ok, err := capvet.Peek(b, strings.Replace(path, "*", strconv.FormatUint(number, 10), 1), l)
		if err != nil || !ok {
			return nodes, err
		}
		nodes = append(nodes, node)
	}
	var refusal *capvet.Refusal
	if len(nodes) < count || count == 0 {
		// (what is wrong with the limits or the frame is reported before a path is followed)
		if _, _, err = capvet.Peek(b, "/", l); errors.As(err, &refusal) {
			err = nil
		}
	}
	return nodes, err
}

// sameRange compares GetRange with Get for each of its paths, and returns how many nodes there are.
func sameRange(t *testing.T, b []byte, path string, first uint32, count int, l *capvet.Limits) (int, error) {
	t.Helper()
	what := fmt.Sprintf("%d of %s from %d of %x in %+v", count, path, first, b, l)
	want, wantErr := oneByOne(b, path, first, count, l)
	dst := make([]capvet.Node, count)
	for k := range dst {
		dst[k].Offset = -1 - k
	}
	n, err := capvet.PeekRange(dst, b, path, first, l)
	same(t, what, wantErr, err)
	sameOfVetted(t, b, path, first, dst, n, l)
	if n != len(want) {
		t.Fatalf("%s: want %d, got %d", what, len(want), n)
	}
	for k, node := range dst {
		if k >= n {
			want = append(want, capvet.Node{Offset: -1 - k})
		}
		if !reflect.DeepEqual(want[k], node) || cap(node.Data) != len(node.Data) {
			t.Fatalf("%s: want %+v, got %+v", what, want[k], node)
		}
	}
	return n, err
}

// sameOfVetted compares the nodes of a message that is accepted with those of PeekRange.
func sameOfVetted(t *testing.T, b []byte, path string, first uint32, nodes []capvet.Node, n int, l *capvet.Limits) {
	m, err := capvet.Vet(b, l)
	if err != nil {
		return
	}
	dst := make([]capvet.Node, len(nodes))
	if count, err := m.GetRange(dst, path, first); err != nil || count != n || !reflect.DeepEqual(dst[:n], nodes[:n]) {
		t.Fatalf("%d of %s from %d: %d, %v", len(nodes), path, first, count, err)
	}
}

// paths returns those of all nodes below a node.
func paths(t *testing.T, b []byte, path string) []string {
	node, ok, err := capvet.Peek(b, path, nil)
	if !ok || err != nil {
		t.Fatal(path, ok, err)
	}
	below, letter := []string{path}, map[capvet.Kind]string{capvet.KindStruct: "p", capvet.KindPointers: "i", capvet.KindStructs: "i"}[node.Kind]
	count := node.Count
	if node.Kind == capvet.KindStruct {
		count = node.Pointers
	}
	for k := 0; letter != "" && k < count; k++ {
		below = append(below, paths(t, b, strings.TrimSuffix(path, "/")+"/"+letter+strconv.Itoa(k))...)
	}
	return below
}

// starred returns a path with a star for one of its numbers, and that number.
func starred(path string, step int) (string, uint32) {
	steps := strings.Split(path, "/")
	number, _ := strconv.ParseUint(steps[step+1][1:], 10, 32)
	steps[step+1] = steps[step+1][:1] + "*"
	return strings.Join(steps, "/"), uint32(number)
}

// Each step of the path of each node of the samples varies.
func TestRangesOfSamples(t *testing.T) {
	several := 0
	for _, name := range []string{"contacts.bin", "contacts-many-segments.bin", "telemetry.bin", "shared.bin"} {
		b := sample(name)
		for _, path := range paths(t, b, "/")[1:] {
			for step := 0; step < strings.Count(path, "/"); step++ {
				star, number := starred(path, step)
				for _, count := range []int{0, 1, 2, 9} {
					if n, _ := sameRange(t, b, star, number, count, nil); n > 1 {
						several++
					}
				}
			}
		}
	}
	if several < 500 {
		t.Error(several)
	}
}

// Messages of which one bit is changed have faults at any place of a range.
func TestRangesOfChangedMessages(t *testing.T) {
	random := rand.New(rand.NewSource(11))
	all := paths(t, sample("contacts.bin"), "/")[1:]
	var within, whole int
	for _, b := range changed(*count) {
		for k := 0; k < 8; k++ {
			path := all[random.Intn(len(all))]
			star, number := starred(path, random.Intn(strings.Count(path, "/")))
			l := runs[random.Intn(len(runs))].limits
			n, err := sameRange(t, b, star, number/uint32(1+random.Intn(3)), random.Intn(9), l)
			if err != nil && n > 0 {
				within++
			} else if err == nil && n > 1 {
				whole++
			}
		}
	}
	if within < 10 || whole < 100 {
		t.Error(within, whole)
	}
}

func TestRanges(t *testing.T) {
	outside := &capvet.Refusal{Reason: capvet.ReasonOutOfSegment, Position: capvet.Position{Word: 5}, Pointer: 3, Length: 56}
	cut := &capvet.FrameError{Reason: capvet.ReasonTruncated, Required: 56}
	for _, row := range []struct {
		b            []byte
		path         string
		first        uint32
		count, found int
		err          error
	}{
		{gap, "/i*", 0, 3, 3, nil},
		{gap, "/i*", 0, 4, 3, nil},
		{gap, "/i*", 3, 1, 0, nil},
		{gap, "/i*", 1<<32 - 1, 2, 0, nil},
		{gap, "/p*", 0, 2, 0, nil},
		{gap, "/p*", 65536, 2, 0, nil},
		{gap, "/i0/p*", 0, 2, 1, nil},
		{gap, "/i0/p*", 65535, 2, 0, nil},
		{gap, "/i*/p0", 0, 3, 1, nil}, // (below the null element)
		{gap, "/i*/p0", 1, 3, 0, nil},
		{gap, "/i*/p0", 2, 3, 0, outside},
		{gap, "/i2/p*", 0, 0, 0, nil},
		{gap[:55], "/i*", 0, 0, 0, cut},
		{gap[:55], "/i*", 0, 2, 0, cut},
		{nil, "/i*", 0, 2, 0, &capvet.FrameError{Reason: capvet.ReasonNoMessage, Required: 8}},
	} {
		n, err := sameRange(t, row.b, row.path, row.first, row.count, nil)
		same(t, row.path, row.err, err)
		if n != row.found {
			t.Errorf("%d of %s from %d: want %d, got %d", row.count, row.path, row.first, row.found, n)
		}
	}
	above := with(capvet.Limits{Depth: 257})
	_, err := capvet.PeekRange(nil, gap, "no path", 0, above)
	same(t, "limits", &capvet.LimitsError{Limits: *above}, err)
}

// Each short text that isn't a path has the offset that Get reports for it, with 0 for its first star.
func TestPathsOfRanges(t *testing.T) {
	texts := []string{""}
	for k := 0; k < len(texts) && len(texts[k]) < 6; k++ {
		for _, letter := range []string{"/", "p", "i", "0", "7", "*"} {
			texts = append(texts, texts[k]+letter)
		}
	}
	texts = append(texts, "/p65535/i*", "/p65536/i*", "/p*/i4294967295", "/p*/i4294967296", "/p*\x00", "/p**", "/i*/q")
	for _, path := range texts {
		_, _, err := capvet.Peek(nil, strings.Replace(path, "*", "0", 1), nil)
		var wrong *capvet.PathError
		if errors.As(err, &wrong) {
			wrong.Path = path
			err = wrong
		} else if !strings.Contains(path, "*") {
			err = &capvet.PathError{Path: path, Offset: len(path)}
		}
		_, got := capvet.PeekRange(nil, nil, path, 0, nil)
		if !reflect.DeepEqual(err, got) {
			t.Errorf("%q: want %#v, got %#v", path, err, got)
		}
	}
	for path, at := range map[string]int{"": 0, "/": 1, "/p0": 3, "/*": 1, "/p*/i*": 5, "/p*0": 3, "*": 0} {
		_, err := capvet.PeekRange(nil, gap, path, 0, nil)
		same(t, path, &capvet.PathError{Path: path, Offset: at}, err)
	}
}
