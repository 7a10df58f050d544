package main

import (
	"errors"
	"fmt"
	"io"
	"os"
	"runtime/debug"
	"strings"
	"testing"

	"capvet.invalid/capvet"
)

// FuzzOptions reads command lines of options and values that the input chooses. What is read is within the bounds, and a run
// says what is wrong. The collector of garbage lets the guard have all that --memory allows.
func FuzzOptions(f *testing.F) {
	names := []string{"--listen", "--connect", "--metrics", "--direction", "--size", "--words", "--depth", "--exclusive",
		"--allow-nonstrict", "--allow-amplified", "--listen-packed", "--connect-packed", "--max-connections", "--max-per-peer", "--dry-run",
		"--connection-rate", "--message-rate", "--byte-rate", "--memory-per-peer", "--listen-mode", "--listen-client-name",
		"--listen-proxy-from", "--tls-min", "--refused-folder", "--refused-bytes", "--log-rate", "--log-connections",
		"--message-timeout", "--idle-timeout", "--connect-timeout", "--drain-timeout", "--memory", "--listen-cert", "--listen-key",
		"--listen-client-ca", "--listen-proxy", "--connect-tls", "--connect-ca", "--connect-name", "--connect-cert", "--connect-key",
		"--connect-proxy", "--log", "--help", "--version", "--none", "word"}
	values := []string{"", "0", "1", "-1", "8", "256", "257", "268435457", "9999999999", "30s", "-5s", "unix:", "unix:/a", "systemd",
		"systemd:a", "127.0.0.1:0", "::1", "none", "both", "requests", "json", "text", os.DevNull, "0660", "1.3", "10.0.0.0/8", "99999999999"}
	// (each option with each value, and a command line that lacks an address)
	for i := range names {
		for j := range values {
			f.Add([]byte{byte(i << 1), byte(j)})
		}
	}
	f.Add([]byte{1})
	f.Add([]byte{1, 12})
	f.Fuzz(func(t *testing.T, data []byte) {
		words := []string{"--listen=127.0.0.1:0", "--connect=unix:/a"}
		if len(data) > 0 && data[0]&1 != 0 {
			words = nil
		}
		for ; len(data) >= 2; data = data[2:] {
			word := names[int(data[0]>>1)%len(names)]
			if data[1] > 0 {
				word += "=" + values[int(data[1])%len(values)]
			}
			words = append(words, word)
		}
		o, err := parse(words)
		if err != nil || o.isHelp || o.isVersion {
			fuzzNoRun(t, words, err)
			return
		}
		if _, err := capvet.Vet(nil, &o.limits); !errors.Is(err, capvet.ReasonNoMessage) || o.memory < 1<<20 || o.connectTimeout <= 0 || len(o.connect) == 0 ||
			o.memoryPerPeer > o.memory || o.memoryPerPeer < 24*int64(o.limits.MessageWords) || o.maxConnections < 0 || o.maxPerPeer < 0 || o.sendProxy > 2 || o.messageTimeout < 0 || o.idleTimeout < 0 || o.drainTimeout < 0 {
			t.Fatal(words, o)
		}
		for _, it := range o.connect {
			if o.connectTLS.isOn && o.connectTLS.name == "" && it.host() == "" {
				t.Fatal(words, "have no name for the certificate")
			}
		}
		defer debug.SetMemoryLimit(debug.SetMemoryLimit(-1))
		log := newLogger(io.Discard, false, 0)
		defer log.close()
		if err := bound(o, log); err != nil || o.maxConnections == 0 || debug.SetMemoryLimit(-1) < o.memory {
			t.Fatal(words, err, o.maxConnections, debug.SetMemoryLimit(-1))
		}
	})
}

// fuzzNoRun runs a guard that only says something, or what is wrong.
func fuzzNoRun(t *testing.T, words []string, wrong error) {
	var out, log strings.Builder
	status := run(words, &out, &log, nil)
	if wrong != nil {
		text := fmt.Sprintf("capvet-guard: %v\nTry 'capvet-guard --help'.\n", wrong)
		if status != statusUsage || out.Len() > 0 || log.String() != text {
			t.Fatal(words, status, log.String())
		}
	} else if status != statusDone || log.Len() > 0 || out.String() != usage && !strings.HasPrefix(out.String(), "capvet-guard ") {
		t.Fatal(words, status, out.String(), log.String())
	}
}
