package main

import (
	"strings"
	"testing"
)

// TestSizes reads sizes of options: numbers are words of 8 bytes or bytes, by the option, and units are of bytes.
func TestSizes(t *testing.T) {
	for _, it := range []struct {
		text  string
		words uint64
		bytes int64
	}{
		{"1000", 1000, 1000}, {"0x10", 16, 16}, {"1_000", 1000, 1000}, {"64MiB", 8388608, 67108864}, {"40MB", 5000000, 40000000},
		{"1kB", 125, 1000}, {"1KiB", 128, 1024}, {"2GiB", 268435456, 2147483648}, {"1GB", 125000000, 1000000000}, {"064MiB", 8388608, 67108864},
		{"0MiB", 0, 0}, {"8589934591GiB", 1152921504472629248, 9223372035781033984},
	} {
		var w wordCount
		var b byteCount
		if err := w.Set(it.text); err != nil || uint64(w) != it.words {
			t.Error(it.text, w, err)
		}
		if err := b.Set(it.text); err != nil || int64(b) != it.bytes {
			t.Error(it.text, b, err)
		}
	}
	for _, text := range []string{"", "64M", "64Mib", "64 MiB", "MiB", "-1MiB", "+1MiB", "1.5MiB", "0x1MiB", "1_0MiB", "8589934592GiB", "1TB", "1B",
		"99999999999999999999", "99999999999999999999MiB"} {
		w, b := wordCount(5), byteCount(5)
		if err := w.Set(text); err == nil || !strings.Contains(err.Error(), "64MiB") || w != 5 {
			t.Error(text, w, err)
		}
		if err := b.Set(text); err == nil || !strings.Contains(err.Error(), "64MiB") || b != 5 {
			t.Error(text, b, err)
		}
	}
}

// TestSizesOfOptions reads the options that take sizes, and says what is wrong with one.
func TestSizesOfOptions(t *testing.T) {
	sides := []string{"--listen=127.0.0.1:0", "--connect=unix:/a"}
	o, err := parse(append(sides, "--size", "8MiB", "--words=80MB", "--memory", "512MiB", "--memory-per-peer=256MiB", "--refused-bytes=2MiB", "--byte-rate=10MB"))
	if err != nil {
		t.Fatal(err)
	}
	if o.limits.MessageWords != 1<<20 || o.limits.Charge != 10000000 || o.memory != 512<<20 || o.memoryPerPeer != 256<<20 || o.refusedBytes != 2<<20 ||
		o.byteRate != 10000000 {
		t.Error(o)
	}
	o, err = parse(append(sides, "--message-words=8MiB", "--charge=16MiB"))
	if err != nil || o.limits.MessageWords != 1<<20 || o.limits.Charge != 2<<20 {
		t.Error(o, err)
	}
	for text, said := range map[string]string{
		"--size=64M":      `invalid value "64M" for --size: it is a number of words of 8 bytes, or a size such as 64MiB or 40MB`,
		"--memory=1G":     `invalid value "1G" for --memory: it is a number of bytes, or a size such as 64MiB or 40MB`,
		"--words=1.5MiB":  `invalid value "1.5MiB" for --words: a size is a number before a unit, as in 64MiB or 40MB`,
		"--byte-rate=-1B": `invalid value "-1B" for --byte-rate: it is a number of bytes, or a size such as 64MiB or 40MB`,
	} {
		if _, err := parse(append(sides, text)); err == nil || err.Error() != said {
			t.Error(text, err)
		}
	}
	if _, err := parse(append(sides, "--size=4GiB")); err == nil || !strings.HasPrefix(err.Error(), "--size and --words are at most 268435456 words, 2 GiB") {
		t.Error(err)
	}
}
