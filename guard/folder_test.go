package main

import (
	"bytes"
	"errors"
	"fmt"
	"os"
	"path/filepath"
	"strings"
	"testing"

	"capvet.invalid/capvet"
)

// filesIn returns the files of a folder by their ends, from the oldest on, and how much they take in blocks.
func filesIn(t *testing.T, path string) (byEnd map[string][]string, used int64) {
	t.Helper()
	all, err := os.ReadDir(path)
	if err != nil {
		t.Fatal(err)
	}
	byEnd = map[string][]string{}
	for _, it := range all {
		if info, err := it.Info(); err == nil && refusedName.MatchString(it.Name()) {
			used += blocks(info.Size())
			byEnd[filepath.Ext(it.Name())] = append(byEnd[filepath.Ext(it.Name())], filepath.Join(path, it.Name()))
		}
	}
	return byEnd, used
}

// Refused messages are kept as they came, with the line of the log and the lines that explain them.
func TestRefusedMessagesAreKept(t *testing.T) {
	path := filepath.Join(t.TempDir(), "refused")
	r := newRig(t, "--refused-folder", path)
	wrong := pastTheEnd(large(100), 8)
	// (an accepted message comes together with every second one)
	for at, message := range [][]byte{cycle, cycle, wrong, wrong, {0, 2, 0, 0, 0, 0, 0, 0}, {0, 2, 0, 0, 0, 0, 0, 0}, shared[:30], shared[:30]} {
		client, server := r.pair()
		before := shared[:len(shared)*(at%2)]
		sends(client, join(before, message))
		half0(client).CloseWrite()
		ends(t, "the server", server, before)
		until(t, "the message is kept", func() bool { return r.guard.folder.kept.Load() > 0 })
		byEnd, _ := filesIn(t, path)
		names := byEnd[".bin"]
		got, err := os.ReadFile(names[len(names)-1])
		if err != nil || !bytes.Equal(got, message) {
			t.Errorf("%d bytes are kept of %d, %v", len(got), len(message), err)
		}
		text, err := os.ReadFile(byEnd[".txt"][len(names)-1])
		why := ""
		var refusal *capvet.Refusal
		if _, wrong := capvet.Vet(message, &r.guard.options.limits); errors.As(wrong, &refusal) {
			why = refusal.Explain()
			if at := strings.Index(string(text), " path "); at < 0 || !strings.HasPrefix(string(text[at+6:]), refusal.Path()+"\n") {
				t.Errorf("the path %s is not in %q", refusal.Path(), text)
			}
		}
		if err != nil || !strings.HasSuffix(string(text), why) || !strings.Contains(string(text), fmt.Sprintf("%v requests message %d: ", client.LocalAddr(), at%2)) {
			t.Errorf("%q, %v", text, err)
		}
		if info, err := os.Stat(names[0]); err != nil || info.Mode().Perm() != 0o600 {
			t.Error(info.Mode(), err)
		}
		r.guard.folder.kept.Store(0)
	}
}

// A flood of refused messages leaves the newest ones, within the bound. Other files stay, and those of an earlier run count.
func TestTheFolderIsBounded(t *testing.T) {
	path := t.TempDir()
	other := filepath.Join(path, "notes.txt")
	if err := os.WriteFile(other, []byte("mine"), 0o600); err != nil {
		t.Fatal(err)
	}
	most := int64(1 << 20)
	for run := 0; run < 2; run++ {
		r := newRig(t, "--refused-folder", path, "--refused-bytes", "1048576", "--log-rate", "0")
		for i := 0; i < 200; i++ {
			client, server := r.pair()
			go sends(client, pastTheEnd(large(2000+i), 8))
			ends(t, "the server", server, nil)
			if _, used := filesIn(t, path); used > most+64<<10 {
				t.Fatal(used, "bytes are used")
			}
		}
		until(t, "all are kept or dropped", func() bool { return r.guard.folder.kept.Load()+r.guard.folder.dropped.Load() == 200 })
		if byEnd, used := filesIn(t, path); used > most || len(byEnd[".bin"]) < 20 || len(byEnd[".bin"]) != len(byEnd[".txt"]) || used != r.guard.folder.used {
			t.Error(used, r.guard.folder.used, len(byEnd[".bin"]), len(byEnd[".txt"]))
		}
		byEnd, _ := filesIn(t, path)
		if newest, err := os.ReadFile(byEnd[".bin"][len(byEnd[".bin"])-1]); err != nil || len(newest) < 8*1990 {
			t.Error(len(newest), err)
		}
	}
	// (a message of more than a quarter of the bound isn't kept)
	r := newRig(t, "--refused-folder", path, "--refused-bytes", "1048576")
	client, server := r.pair()
	go sends(client, pastTheEnd(large(40000), 8))
	ends(t, "the server", server, nil)
	until(t, "a large message is dropped", func() bool { return r.guard.folder.dropped.Load() == 1 })
	if text, err := os.ReadFile(other); string(text) != "mine" {
		t.Error(err)
	}
}
