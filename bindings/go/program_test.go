package capvet_test

import (
	"bytes"
	"errors"
	"flag"
	"fmt"
	"math/rand"
	"os/exec"
	"path/filepath"
	"regexp"
	"strings"
	"testing"
	"testing/iotest"

	"capvet.invalid/capvet"
)

// The program to compare with, how many changed messages there are, and the distance of two cuts of a stream.
var (
	program = flag.String("program", "", "the path of the program capvet")
	count   = flag.Int("changed", 2000, "how many changed messages are compared")
	cuts    = flag.Int("cuts", 17, "a stream is cut after each such number of bytes")
)

// runs are options of the program, each with the limits that have the same effect.
var runs = []struct {
	options []string
	limits  *capvet.Limits
}{
	{[]string{"--strict", "--unamplified"}, nil},
	{[]string{"--unamplified"}, with(capvet.Limits{AllowNonstrict: true})},
	{[]string{"--strict"}, with(capvet.Limits{AllowAmplified: true})},
	{nil, with(capvet.Limits{AllowNonstrict: true, AllowAmplified: true})},
	{[]string{"--strict", "--unamplified", "--size", "392", "--words", "300", "--depth", "6"},
		with(capvet.Limits{MessageWords: 392, Charge: 300, Depth: 6})},
}

// run returns what the program writes to its standard output, to its standard error, and its status.
func run(t *testing.T, input []byte, words ...string) (text, said string, status int) {
	t.Helper()
	if *program == "" {
		t.Skip("not compared with the program: -program has to be its path")
	}
	var out, err bytes.Buffer
	command := exec.Command(*program, words...)
	command.Stdin, command.Stdout, command.Stderr = bytes.NewReader(input), &out, &err
	var exit *exec.ExitError
	if failed := command.Run(); failed != nil && !errors.As(failed, &exit) {
		t.Fatal(failed)
	}
	return out.String(), err.String(), command.ProcessState.ExitCode()
}

// changed returns messages, each a sample of which one bit after the table is changed.
func changed(n int) [][]byte {
	samples := [][]byte{sample("contacts.bin"), sample("contacts-many-segments.bin"), sample("telemetry.bin"), sample("shared.bin")}
	random := rand.New(rand.NewSource(7))
	messages := make([][]byte, n)
	for i := range messages {
		b := join(samples[random.Intn(len(samples))])
		table := (int(b[0]) + 3) / 2 * 8
		b[table+random.Intn(len(b)-table)] ^= 1 << random.Intn(8)
		messages[i] = b
	}
	return messages
}

// scanned returns what the program should write for a stream, by a Scanner.
func scanned(s *capvet.Scanner, length int) (text, said string, status int) {
	var all strings.Builder
	for _, refusal, ok := next(s); ok; _, refusal, ok = next(s) {
		line := s.Message().Report().String()
		if refusal != nil {
			line, status = refusal.Line(), 1
		}
		fmt.Fprintf(&all, "message %d: %s\n", s.Number(), line)
	}
	var frame *capvet.FrameError
	if errors.As(s.Err(), &frame) {
		fault := frame.Line()
		if frame.Reason == capvet.ReasonTruncated {
			fault = fmt.Sprintf("Truncated at byte %d", length)
		}
		return all.String(), fmt.Sprintf("capvet: message %d: %s\n", s.Number(), fault), 1
	}
	if s.Err() != nil {
		return all.String(), s.Err().Error(), 3
	}
	return all.String(), "", status
}

// compare compares what the program writes for a stream with what two Scanners give, one of the stream and one of its
// packed form.
func compare(t *testing.T, name string, stream []byte, isExclusive bool) {
	t.Helper()
	for _, it := range runs {
		words, limits := append([]string{"vet"}, it.options...), it.limits
		if isExclusive {
			words, limits = append(words, "--exclusive"), exclusive(limits)
		}
		equal(t, name, stream, words, capvet.NewScanner(bytes.NewReader(stream), limits))
		if len(stream)%8 == 0 {
			packed := packedWords(stream)
			s := capvet.NewPackedScanner(iotest.HalfReader(bytes.NewReader(packed)), limits)
			equal(t, name+", packed", packed, append(words, "--packed"), s)
		}
	}
}

// equal compares one run of the program with one Scanner.
func equal(t *testing.T, name string, input []byte, words []string, s *capvet.Scanner) {
	t.Helper()
	text, said, status := scanned(s, len(input))
	wantText, wantSaid, wantStatus := run(t, input, words...)
	if text != wantText || said != wantSaid || status != wantStatus {
		t.Errorf("%s by %v: want\n%s%s%d, got\n%s%s%d", name, words, wantText, wantSaid, wantStatus, text, said, status)
	}
}

func TestSamplesAsTheProgram(t *testing.T) {
	for _, name := range []string{"contacts.bin", "contacts-many-segments.bin", "telemetry.bin", "stream-of-four.bin", "shared.bin",
		"cycle.bin"} {
		compare(t, name, sample(name), false)
		compare(t, name, sample(name), true)
	}
	compare(t, "nothing", nil, false)
}

func TestChangedMessagesAsTheProgram(t *testing.T) {
	messages := changed(*count)
	compare(t, "changed messages", join(messages...), false)
	compare(t, "changed messages", join(messages...), true)
	accepted := 0
	for _, b := range messages {
		if _, err := capvet.Vet(b, nil); err == nil {
			accepted++
		}
	}
	if accepted < len(messages)/10 || accepted > len(messages)*9/10 {
		t.Errorf("%d of %d are accepted", accepted, len(messages))
	}
}

// frames returns the messages of all samples.
func frames(t *testing.T) (messages [][]byte) {
	t.Helper()
	files, err := filepath.Glob("../../examples/*.bin")
	if err != nil || len(files) == 0 {
		t.Fatal("there are no samples", err)
	}
	for _, file := range files {
		for rest := sample(filepath.Base(file)); len(rest) > 0; {
			length, err := capvet.FrameLength(rest, nil)
			if err != nil {
				t.Fatal(file, err)
			}
			messages, rest = append(messages, rest[:length]), rest[length:]
		}
	}
	return messages
}

// byProgram is what the program says and the library doesn't, which explains one message by its limits: the byte in the input,
// and why filter refuses a message that these limits accept.
var byProgram = regexp.MustCompile(`, byte \d+ of the input|(?m)^  filter, .*\n(?:  .*\n)*`)

func TestExplanationsAsTheProgram(t *testing.T) {
	messages := append(changed(*count), frames(t)...)
	for _, it := range runs {
		var stream, text bytes.Buffer
		number := 0
		for _, b := range messages {
			m, err := capvet.Vet(b, it.limits)
			verdict, lines := m.Report().String(), ""
			var refusal *capvet.Refusal
			if errors.As(err, &refusal) {
				verdict, lines, err = refusal.Line(), refusal.Explain(), nil
			}
			// (the program ends at a message without a frame)
			if err == nil {
				fmt.Fprintf(&text, "message %d: %s\n%s", number, verdict, lines)
				stream.Write(b)
				number++
			}
		}
		want, _, _ := run(t, stream.Bytes(), append([]string{"explain"}, it.options...)...)
		want = byProgram.ReplaceAllString(want, "")
		if text.String() != want || !strings.Contains(want, "  reason ") {
			t.Errorf("%v: the lines of %d bytes differ from those of the program, of %d", it.options, text.Len(), len(want))
		}
	}
}

func TestCutStreamsAsTheProgram(t *testing.T) {
	stream := join(sample("shared.bin"), sample("cycle.bin"), sample("contacts-many-segments.bin"), sample("contacts.bin"))
	packed := packedWords(stream)
	for at := 0; at <= len(stream); at += *cuts {
		s := capvet.NewScanner(bytes.NewReader(stream[:at]), nil)
		equal(t, fmt.Sprint("cut at ", at), stream[:at], []string{"vet", "--strict", "--unamplified"}, s)
		if at <= len(packed) {
			s := capvet.NewPackedScanner(bytes.NewReader(packed[:at]), nil)
			equal(t, fmt.Sprint("packed, cut at ", at), packed[:at], []string{"vet", "--strict", "--unamplified", "--packed"}, s)
		}
	}
}

// Tables with a changed byte claim other segments, too many of them, or too many words.
func TestChangedTablesAsTheProgram(t *testing.T) {
	contacts := sample("contacts-many-segments.bin")
	table := (int(contacts[0]) + 3) / 2 * 8
	for at := 0; at < table; at++ {
		b := join(contacts)
		b[at] ^= 1 << (at % 8)
		s := capvet.NewScanner(bytes.NewReader(b), nil)
		equal(t, fmt.Sprint("byte ", at), b, []string{"vet", "--strict", "--unamplified"}, s)
	}
}

func TestCanonicalAsTheProgram(t *testing.T) {
	messages := append(changed(*count/10), sample("contacts.bin"), sample("shared.bin"), capability)
	forms := 0
	for _, b := range messages {
		want, _, status := run(t, b, "canon", "--strict", "--unamplified")
		words, err := canonical(make([]byte, 8), b)
		if err != nil {
			words = nil
		} else {
			forms++
			words[4], words[5], words[6] = byte((len(words)-8)/8), byte((len(words)-8)>>11), byte((len(words)-8)>>19)
		}
		if string(words) != want || (err == nil) != (status == 0) {
			t.Fatalf("%x: %v", b, err)
		}
		for _, b := range [][]byte{b, []byte(want)} {
			m, err := capvet.Vet(b, with(capvet.Limits{AllowAmplified: true}))
			line := map[bool]string{false: "not canonical", true: "canonical"}[m.IsCanonical()]
			var refusal *capvet.Refusal
			if errors.As(err, &refusal) {
				line = refusal.Line()
			}
			if len(b) > 0 {
				line = "message 0: " + line + "\n"
			} else if errors.Is(err, capvet.ReasonNoMessage) {
				line = ""
			}
			if want, _, _ := run(t, b, "check", "--strict"); line != want {
				t.Fatalf("%x: want %q, got %q", b, want, line)
			}
		}
	}
	if forms < len(messages)/10 || forms == len(messages) {
		t.Errorf("%d of %d have a canonical form", forms, len(messages))
	}
}

func TestSegmentsAsTheProgram(t *testing.T) {
	messages := changed(*count / 10)
	var all strings.Builder
	for number, b := range messages {
		segments, err := capvet.Segments(b)
		if err != nil {
			t.Fatal(err)
		}
		sum, lines := 0, ""
		for i, words := range segments {
			sum += len(words) / 8
			lines += fmt.Sprintf("segment %d: %d\n", i, len(words)/8)
		}
		fmt.Fprintf(&all, "message %d: segments %d words %d\n%sroot %x\n", number, len(segments), sum, lines, segments[0][:8])
	}
	if want, _, _ := run(t, join(messages...), "segments"); all.String() != want {
		t.Errorf("want %q, got %q", want, all.String())
	}
}

func TestPackingAsTheProgram(t *testing.T) {
	for _, b := range append(changed(*count/20), sample("stream-of-four.bin"), make([]byte, 8*600), many(512)) {
		packed := packedWords(b)
		if want, _, _ := run(t, b, "pack"); string(packed) != want {
			t.Fatalf("%x", b)
		}
		if words, err := capvet.AppendUnpackedWords(nil, packed, len(b)); err != nil || !bytes.Equal(words, b) {
			t.Fatal(err)
		}
		length, _ := capvet.FrameLength(b, nil)
		message, err := capvet.AppendPackedMessage(nil, b[:length], nil)
		if words, _, status := run(t, message, "unpack"); err != nil || words != string(b[:length]) || status != 0 {
			t.Fatal(err)
		}
	}
}

// tree writes the lines of the node at a path and of all nodes below it, as the program dumps them.
func tree(t *testing.T, all *strings.Builder, m capvet.Message, path, label string, level int) {
	node, ok, err := m.Get(path)
	if !ok || err != nil {
		t.Fatal(path, err)
	}
	if node.Data != nil && len(node.Data) > 0 && &node.Data[0] != &m.Bytes()[node.Offset] {
		t.Fatal(path, node.Offset)
	}
	head, step, below, words := "null", "i", node.Count, ""
	switch node.Kind {
	case capvet.KindStruct:
		head, step, below, words = fmt.Sprintf("struct %d %d", node.DataWords, node.Pointers), "p", node.Pointers, "d"
	case capvet.KindValues:
		head, below, words = fmt.Sprintf("list %d %d", node.Element, node.Count), 0, "w"
	case capvet.KindPointers:
		head = fmt.Sprintf("pointers %d", node.Count)
	case capvet.KindStructs:
		head = fmt.Sprintf("structs %d %d %d", node.Count, node.DataWords, node.Pointers)
		if node.DataWords+node.Pointers == 0 {
			below = 0
		}
	case capvet.KindCapability:
		head = fmt.Sprintf("cap %d", node.Capability)
	}
	indent := strings.Repeat("  ", level)
	fmt.Fprintf(all, "%s%s %s\n", indent, label, head)
	if words != "" {
		data := join(node.Data, make([]byte, -len(node.Data)&7))
		if node.Element == 1 && node.Count%8 != 0 {
			data[node.Count/8] &= 1<<(node.Count%8) - 1
		}
		for i := 0; i < len(data); i += 8 {
			fmt.Fprintf(all, "%s  %s%d %x\n", indent, words, i/8, data[i:i+8])
		}
	}
	for i := 0; i < below; i++ {
		tree(t, all, m, fmt.Sprintf("%s/%s%d", strings.TrimRight(path, "/"), step, i), fmt.Sprint(step, i), level+1)
	}
}

func TestTreesAsTheProgram(t *testing.T) {
	messages := append(changed(*count/20), sample("contacts.bin"), sample("telemetry.bin"), capability)
	var all strings.Builder
	for number, b := range messages {
		m, err := capvet.Vet(b, nil)
		if err != nil {
			var refusal *capvet.Refusal
			if !errors.As(err, &refusal) {
				t.Fatal(err)
			}
			fmt.Fprintf(&all, "message %d: %s\n", number, refusal.Line())
			continue
		}
		fmt.Fprintf(&all, "message %d: %v\n", number, m.Report())
		tree(t, &all, m, "/", "root", 0)
	}
	want, _, _ := run(t, join(messages...), "dump", "--strict", "--unamplified")
	if all.String() != want {
		t.Errorf("the trees of %d bytes differ from those of the program, of %d", all.Len(), len(want))
	}
}
