package main

import (
	"errors"
	"fmt"
	"os"
	"path/filepath"
	"regexp"
	"sort"
	"strings"
	"sync/atomic"
	"time"

	"capvet.invalid/capvet"
)

const (
	// block is what a small file takes on a disk: each file counts as a whole number of blocks.
	block = 4 << 10
	// awaiting is how many refused messages wait for the disk.
	awaiting = 64
)

// refusedName is the form of the names in a folder: others are left alone.
var refusedName = regexp.MustCompile(`^\d{8}T\d{6}\.\d{9}Z-\d+-(requests|replies)\.(bin|txt)$`)

// folder keeps the newest refused messages as files, each with a text that explains it. A connection never waits for the disk.
type folder struct {
	path   string
	most   int64 // bytes of all files
	memory *budget
	log    *logger

	rate   bucket
	queue  chan evidence
	ended  chan struct{}
	number int
	files  []keptFile // from the oldest on
	used   int64

	kept, dropped atomic.Int64
}

// keptFile is a file of a folder.
type keptFile struct {
	name string
	size int64 // in whole blocks
}

// evidence is a refused message, or what came of it, and the line of the log about it.
type evidence struct {
	direction direction
	line      string
	frame     []byte
	refusal   *capvet.Refusal // of a message that is whole
}

// openFolder opens a folder, and makes it if it isn't there. What it has counts as kept.
func openFolder(o *options, memory *budget, log *logger) (*folder, error) {
	if err := os.MkdirAll(o.refusedFolder, 0o700); err != nil {
		return nil, err
	}
	names, err := os.ReadDir(o.refusedFolder)
	if err != nil {
		return nil, err
	}
	f := &folder{path: o.refusedFolder, most: o.refusedBytes, memory: memory, log: log, rate: bucket{rate: o.logRate},
		queue: make(chan evidence, awaiting), ended: make(chan struct{})}
	for _, it := range names {
		if info, err := it.Info(); err == nil && refusedName.MatchString(it.Name()) {
			f.add(it.Name(), info.Size())
		}
	}
	sort.Slice(f.files, func(i, j int) bool { return f.files[i].name < f.files[j].name })
	f.remove(f.most)
	go f.run()
	return f, nil
}

// keep has a refused message kept. It is dropped if it is large, if there are more in a second than lines of the log, or if the disk is
// too slow.
func (f *folder) keep(s *session, e ending, frame []byte) {
	if f == nil {
		return
	}
	if int64(len(frame)) > f.most/4 || !f.rate.allow(1) || !f.memory.take(len(frame)) {
		f.dropped.Add(1)
		return
	}
	it := evidence{direction: e.direction, line: f.log.text(name(s.caller.source), e)}
	if errors.As(e.err, &it.refusal) {
		it.refusal = it.refusal.Clone()
		it.frame = it.refusal.Unvetted()
	} else {
		it.frame = append([]byte(nil), frame...)
	}
	select {
	case f.queue <- it:
	default:
		f.memory.give(len(frame))
		f.dropped.Add(1)
	}
}

// close keeps what waits.
func (f *folder) close() {
	if f == nil {
		return
	}
	close(f.queue)
	select {
	case <-f.ended:
	case <-time.After(lastWords):
	}
}

// run writes files until the folder is closed.
func (f *folder) run() {
	defer close(f.ended)
	for it := range f.queue {
		err := f.write(it)
		f.memory.give(len(it.frame))
		if err != nil {
			f.dropped.Add(1)
			f.log.connection(record{Event: "refused_folder", Text: err.Error()})
			continue
		}
		f.kept.Add(1)
	}
}

// write writes both files of a message, once others have made space for them.
func (f *folder) write(it evidence) error {
	text := it.line
	if it.refusal != nil {
		text += it.refusal.Explain()
	}
	f.remove(f.most - blocks(int64(len(text))) - blocks(int64(len(it.frame))))
	f.number++
	stem := fmt.Sprintf("%s-%06d-%v", time.Now().UTC().Format("20060102T150405.000000000Z"), f.number, it.direction)
	for end, b := range map[string][]byte{".txt": []byte(text), ".bin": it.frame} {
		f.add(stem+end, int64(len(b)))
		if err := os.WriteFile(filepath.Join(f.path, stem+end), b, 0o600); err != nil {
			return err
		}
	}
	return nil
}

// blocks returns a size in whole blocks.
func blocks(size int64) int64 { return (size + block - 1) / block * block }

// add counts a file.
func (f *folder) add(name string, size int64) {
	f.files = append(f.files, keptFile{name, blocks(size)})
	f.used += blocks(size)
}

// remove removes the oldest files until at most so many bytes are used. Both files of a message go together.
func (f *folder) remove(most int64) {
	for len(f.files) > 0 && f.used > most {
		stem := strings.TrimSuffix(strings.TrimSuffix(f.files[0].name, ".bin"), ".txt")
		for len(f.files) > 0 && strings.HasPrefix(f.files[0].name, stem) {
			os.Remove(filepath.Join(f.path, f.files[0].name))
			f.used -= f.files[0].size
			f.files = f.files[1:]
		}
	}
}
