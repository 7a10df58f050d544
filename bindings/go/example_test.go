package capvet_test

import (
	"bytes"
	"crypto/sha256"
	"errors"
	"fmt"
	"io"
	"log"
	"net"
	"os"
	"strings"

	"capvet.invalid/capvet"
)

// null is one segment of one word, which is the null pointer.
var null = []byte{0, 0, 0, 0, 1, 0, 0, 0, 0, 0, 0, 0, 0, 0, 0, 0}

// cycle is a struct whose pointer leads back to itself.
var cycle = []byte{0, 0, 0, 0, 1, 0, 0, 0, 0xfc, 0xff, 0xff, 0xff, 0, 0, 1, 0}

// sample returns a file of the folder of examples.
func sample(name string) []byte {
	b, err := os.ReadFile("../../examples/" + name)
	if err != nil {
		log.Fatal(err)
	}
	return b
}

func ExampleVersion() {
	major, _, _ := strings.Cut(capvet.Version(), ".")
	fmt.Println("version", major)
	// Output: version 2
}

func ExampleCPUSupported() {
	if !capvet.CPUSupported() {
		log.Fatal("the processor is too old for capvet")
	}
	fmt.Println("supported")
	// Output: supported
}

func ExampleVet() {
	for _, b := range [][]byte{sample("contacts.bin"), cycle, null[:12]} {
		message, err := capvet.Vet(b, nil)
		var refusal *capvet.Refusal
		switch {
		case err == nil:
			fmt.Println("accepted, charge", message.Report().Charge)
		case errors.As(err, &refusal):
			fmt.Println("refused", refusal.Reason, "at", refusal.Position)
		default:
			fmt.Println(err)
		}
	}
	// Output:
	// accepted, charge 391
	// refused DepthLimit at 0:0
	// capvet: Truncated: at least 16 bytes are required
}

// The messages of a buffer, one after the other.
func ExampleVetPrefix() {
	rest := sample("stream-of-four.bin")
	for len(rest) > 0 {
		var message capvet.Message
		var err error
		if message, rest, err = capvet.VetPrefix(rest, nil); err != nil {
			log.Fatal(err)
		}
		fmt.Println(message.Report())
	}
	// Output:
	// accepted charge 391 depth 11 pointers 125 caps 0
	// accepted charge 76 depth 4 pointers 34 caps 0
	// accepted charge 20 depth 2 pointers 7 caps 0
	// accepted charge 78 depth 7 pointers 21 caps 0
}

// The same by one call of the library. The error is that of the message after the last accepted one.
func ExampleVetAll() {
	b := append(append(sample("stream-of-four.bin"), cycle...), null...)
	count, length, err := capvet.VetAll(b, nil)
	fmt.Println(count, "messages of", length, "bytes")
	fmt.Println(err)
	// Output:
	// 4 messages of 4472 bytes
	// capvet: refused DepthLimit at 0:0 pointers 65
}

// A message in which no word is used twice can be written in place: a write to one object changes no other.
func ExampleLimits() {
	limits := capvet.DefaultLimits()
	limits.Exclusive = true
	_, err := capvet.Vet(sample("shared.bin"), &limits)
	fmt.Println(err)
	// Output: capvet: refused Overlap at 0:2 pointers 3
}

func ExampleRefusal() {
	// (a struct of two pointers, of which the second leads past the end of the segment)
	message := []byte{
		0, 0, 0, 0, 3, 0, 0, 0, 0, 0, 0, 0, 0, 0, 2, 0,
		0, 0, 0, 0, 0, 0, 0, 0, 0, 0, 0, 0, 1, 0, 0, 0,
	}
	_, err := capvet.Vet(message, nil)
	var refusal *capvet.Refusal
	if errors.As(err, &refusal) {
		fmt.Println(refusal.Path())
		fmt.Println(err)
		fmt.Print(refusal.Explain())
	}
	// Output:
	// /p1
	// capvet: refused OutOfSegment at 0:2 pointers 3
	//   path /p1
	//   byte 24 of the message
	//   pointer 0000000001000000 struct, offset 0, data words 1, pointers 0
	//   target 0:3 to 0:3, words 1
	//   leads into segment 0, words 3
	//   reason the target runs past the end of its segment
}

func ExampleMessage_AppendCanonical() {
	for _, name := range []string{"contacts.bin", "contacts-many-segments.bin"} {
		message, err := capvet.Vet(sample(name), nil)
		if err != nil {
			log.Fatal(err)
		}
		words, err := message.AppendCanonical(nil)
		if err != nil {
			log.Fatal(err)
		}
		fmt.Printf("%x\n", sha256.Sum256(words))
	}
	// Output:
	// da5b2d724a838dca43e56e40db89de68bba3d3772cd838de0fa7e9029481403e
	// da5b2d724a838dca43e56e40db89de68bba3d3772cd838de0fa7e9029481403e
}

func ExampleIsCanonicalWords() {
	message, err := capvet.Vet(sample("contacts.bin"), nil)
	if err != nil {
		log.Fatal(err)
	}
	words, err := message.AppendCanonical(nil)
	if err != nil {
		log.Fatal(err)
	}
	fmt.Println(capvet.IsCanonicalWords(words, nil))
	fmt.Println(message.IsCanonical())
	// Output:
	// true <nil>
	// false
}

func ExampleMessage_FirstDifference() {
	message, err := capvet.Vet(sample("contacts.bin"), nil)
	if err != nil {
		log.Fatal(err)
	}
	if difference, ok := message.FirstDifference(); ok {
		fmt.Println(difference)
		fmt.Println(difference.Path())
	}
	// Output:
	// not canonical: DataZero at 0:9
	// /p0/i0/p2
}

func ExampleFrameLength() {
	for _, received := range []int{0, 7, 8, 16} {
		length, err := capvet.FrameLength(null[:received], nil)
		var frame *capvet.FrameError
		if errors.As(err, &frame) {
			fmt.Println(received, "bytes, of which", frame.Required, "are required")
			continue
		}
		fmt.Println("a frame of", length, "bytes")
	}
	// Output:
	// 0 bytes, of which 8 are required
	// 7 bytes, of which 8 are required
	// 8 bytes, of which 16 are required
	// a frame of 16 bytes
}

func ExampleSegments() {
	segments, err := capvet.Segments(sample("shared.bin"))
	if err != nil {
		log.Fatal(err)
	}
	for number, words := range segments {
		fmt.Println("segment", number, "has", len(words)/8, "words")
	}
	// Output: segment 0 has 4 words
}

func ExampleMessage_Get() {
	message, err := capvet.Vet(sample("contacts.bin"), nil)
	if err != nil {
		log.Fatal(err)
	}
	name, ok, err := message.Get("/p0/i0/p2/i0/p0")
	if err != nil || !ok || name.Kind != capvet.KindValues {
		log.Fatal(name, ok, err)
	}
	fmt.Printf("%s\n", bytes.TrimRight(name.Data, "\x00"))
	_, ok, err = message.Get("/p7")
	fmt.Println(ok, err)
	_, _, err = message.Get("/x7")
	fmt.Println(err)
	// Output:
	// fjord zephyr amber
	// false <nil>
	// capvet: bad path "/x7" at byte 1
}

// field returns the node at a path. It is null if there is none, and has to be null or of the kind that the schema has.
func field(message capvet.Message, path string, kind capvet.Kind) (capvet.Node, error) {
	node, _, err := message.Get(path)
	if err == nil && node.Kind != capvet.KindNull && node.Kind != kind {
		err = fmt.Errorf("%s is of the kind %v", path, node.Kind)
	}
	return node, err
}

// names returns the names of the people in a Book of examples/contacts.capnp: pointer 0 of each struct of a list.
func names(message capvet.Message) ([]string, error) {
	if _, err := field(message, "/", capvet.KindStruct); err != nil {
		return nil, err
	}
	people, err := field(message, "/p0", capvet.KindStructs)
	if err != nil {
		return nil, err
	}
	texts := make([]string, people.Count)
	nodes := make([]capvet.Node, 3)
	// (without pointers, each name has its default)
	for first := 0; first < len(texts) && people.Pointers > 0; first += len(nodes) {
		if rest := len(texts) - first; rest < len(nodes) {
			nodes = nodes[:rest]
		}
		if _, err := message.GetRange(nodes, "/p0/i*/p0", uint32(first)); err != nil {
			return nil, err
		}
		for k, name := range nodes {
			if name.Kind != capvet.KindNull && (name.Kind != capvet.KindValues || name.Element != 2) {
				return nil, fmt.Errorf("name %d is no text", first+k)
			}
			texts[first+k] = string(bytes.TrimRight(name.Data, "\x00"))
		}
	}
	return texts, nil
}

// Pointer 0 of each element of a list of structs is a text. A reader finds two names in the last message too, which has a
// list of another kind. So it is refused, and not taken for one without names.
func ExampleMessage_GetRange() {
	for _, name := range []string{"contacts.bin", "readers/people-without-names.bin", "readers/people-as-texts.bin"} {
		message, err := capvet.Vet(sample(name), nil)
		if err != nil {
			log.Fatal(err)
		}
		texts, err := names(message)
		fmt.Printf("%q %v\n", texts, err)
	}
	// Output:
	// ["fjord Ω Grüße lantern Grüße" "" "" "señal harbor thicket lantern fjord" "señal salt" "" "lantern thicket 北京 zephyr"] <nil>
	// ["" ""] <nil>
	// [] /p0 is of the kind Pointers
}

func ExampleAppendPackedWords() {
	packed, err := capvet.AppendPackedWords(nil, null)
	fmt.Printf("%x %v\n", packed, err)
	words, err := capvet.AppendUnpackedWords(nil, packed, 1<<20)
	fmt.Println(bytes.Equal(words, null), err)
	_, err = capvet.AppendUnpackedWords(nil, packed, 8)
	fmt.Println(err)
	// Output:
	// 10010000 <nil>
	// true <nil>
	// capvet: TooLarge: 2 words are above the limit
}

func ExampleAppendPackedMessage() {
	packed, err := capvet.AppendPackedMessage(nil, null, nil)
	fmt.Printf("%x %v\n", packed, err)
	// Output: 10010000 <nil>
}

func ExampleScanner() {
	stream := bytes.NewReader(append(append(append([]byte{}, null...), cycle...), null[:10]...))
	s := capvet.NewScanner(stream, nil)
	for s.Scan() {
		fmt.Printf("message %d at byte %d: %d bytes\n", s.Number(), s.Offset(), len(s.Message().Bytes()))
	}
	fmt.Printf("message %d at byte %d: %v\n", s.Number(), s.Offset(), s.Err())
	// Output:
	// message 0 at byte 0: 16 bytes
	// message 1 at byte 16: capvet: refused DepthLimit at 0:0 pointers 65
}

// After a refused message Scan goes on with the next one.
func ExampleScanner_Scan() {
	stream := bytes.NewReader(append(append(append([]byte{}, cycle...), null...), null[:10]...))
	s := capvet.NewScanner(stream, nil)
	for {
		for s.Scan() {
			fmt.Printf("message %d at byte %d: %d bytes\n", s.Number(), s.Offset(), len(s.Message().Bytes()))
		}
		var refusal *capvet.Refusal
		if !errors.As(s.Err(), &refusal) {
			break
		}
		fmt.Printf("message %d at byte %d: %s\n", refusal.Number, refusal.Offset, refusal.Line())
	}
	fmt.Printf("message %d at byte %d: %v\n", s.Number(), s.Offset(), s.Err())
	fmt.Println("the stream is cut:", errors.Is(s.Err(), io.ErrUnexpectedEOF))
	// Output:
	// message 0 at byte 0: refused DepthLimit at 0:0 pointers 65
	// message 1 at byte 16: 16 bytes
	// message 2 at byte 32: capvet: Truncated: at least 16 bytes are required
	// the stream is cut: true
}

func ExampleNewPackedScanner() {
	limits := capvet.DefaultLimits()
	limits.MessageWords = 1 << 16
	s := capvet.NewPackedScanner(bytes.NewReader(sample("contacts.packed")), &limits)
	for s.Scan() {
		fmt.Println(len(s.Message().Bytes()), "bytes, charge", s.Message().Report().Charge)
	}
	fmt.Println(s.Number(), s.Err())
	// Output:
	// 3144 bytes, charge 391
	// 1 <nil>
}

// The bytes of accepted messages, for what reads messages from an io.Reader.
func ExampleNewReader() {
	stream := bytes.NewReader(append(append(append([]byte{}, null...), cycle...), null...))
	b, err := io.ReadAll(capvet.NewReader(stream, nil))
	fmt.Println(len(b), "bytes;", err)
	// Output: 16 bytes; capvet: refused DepthLimit at 0:0 pointers 65
}

// The server passes on a message only after all of it is vetted, and nothing of a refused one.
func ExampleNewConn() {
	client, server := net.Pipe()
	go func() {
		client.Write(append(append([]byte{}, null...), cycle...))
		client.Close()
	}()
	b, err := io.ReadAll(capvet.NewConn(server, nil))
	fmt.Println(len(b), "bytes;", err)
	// Output: 16 bytes; capvet: refused DepthLimit at 0:0 pointers 65
}

func ExampleMessage_ForReader() {
	message, err := capvet.Vet(sample("contacts.bin"), nil)
	if err != nil {
		log.Fatal(err)
	}
	b, limits := message.ForReader(10000) // (the program goes through the message so often)
	fmt.Println(len(b), "bytes,", limits.TraverseLimit, "bytes to traverse,", limits.DepthLimit, "levels")
	// Output: 3144 bytes, 94000000 bytes to traverse, 64 levels
}

func ExampleVetWords() {
	message, err := capvet.VetWords(null[8:], nil)
	fmt.Println(len(message.Bytes()), "bytes with a table,", err)
	// Output: 16 bytes with a table, <nil>
}

func ExampleVetSegments() {
	segments := [][]byte{{2, 0, 0, 0, 1, 0, 0, 0}, {0, 0, 0, 0, 1, 0, 0, 0, 7, 0, 0, 0, 0, 0, 0, 0}}
	message, err := capvet.VetSegments(segments, nil)
	if err != nil {
		log.Fatal(err)
	}
	node, _, err := message.Get("/")
	fmt.Println(node.Kind, node.Data, err)
	// Output: Struct [7 0 0 0 0 0 0 0] <nil>
}

// One field of a message that is not vetted. What is wrong with another pointer is not noticed.
func ExamplePeek() {
	node, ok, err := capvet.Peek(sample("contacts.bin"), "/p0", nil)
	fmt.Println(node.Kind, node.Count, ok, err)
	// Output: Structs 7 true <nil>
}

func ExamplePeekRange() {
	nodes := make([]capvet.Node, 9)
	n, err := capvet.PeekRange(nodes, sample("contacts.bin"), "/p0/i*", 0, nil)
	fmt.Println(n, "elements,", nodes[0].Kind, err)
	// Output: 7 elements, Struct <nil>
}
