// Say writes a JSON object for each message of a file, as say.c does, by the package capvet.
//
//	say FILE WORDS CHARGE DEPTH FLAGS EXCLUSIVE
package main

import (
	"bufio"
	"encoding/binary"
	"errors"
	"fmt"
	"hash/adler32"
	"log"
	"os"
	"strconv"
	"strings"

	"capvet.invalid/capvet"
)

func main() {
	log.SetFlags(0)
	limits := capvet.Limits{MessageWords: number(2), Charge: number(3), Depth: uint32(number(4)), AllowNonstrict: number(5)&1 != 0,
		AllowAmplified: number(5)&2 != 0, Exclusive: number(6) == 1}
	b, err := os.ReadFile(os.Args[1])
	if err != nil {
		log.Fatal(err)
	}
	out := bufio.NewWriter(os.Stdout)
	for i := 0; len(b) > 0; i++ {
		n := 4 + int(binary.LittleEndian.Uint32(b))
		// (in memory of its own)
		message := append([]byte(nil), b[4:n]...)
		fmt.Fprintf(out, "{\"message\":%d,%s}\n", i, said(message, &limits))
		b = b[n:]
	}
	if err := out.Flush(); err != nil {
		log.Fatal(err)
	}
}

// number returns an argument.
func number(i int) uint64 {
	n, err := strconv.ParseUint(os.Args[i], 10, 64)
	if err != nil {
		log.Fatal(err)
	}
	return n
}

// said returns the members of the object about a message.
func said(b []byte, l *capvet.Limits) string {
	message, err := capvet.Vet(b, l)
	var refusal *capvet.Refusal
	var frame *capvet.FrameError
	switch {
	case err == nil:
		return accepted(message)
	case errors.As(err, &refusal):
		return refused(refusal)
	case errors.As(err, &frame):
		return broken(frame)
	}
	return err.Error()
}

func quoted(text string) string {
	return `"` + strings.ReplaceAll(text, "\n", `\n`) + `"`
}

func broken(e *capvet.FrameError) string {
	text := fmt.Sprintf(`"verdict":"broken","reason":"%v"`, e.Reason)
	switch e.Reason {
	case capvet.ReasonTooManySegments:
		return fmt.Sprintf(`%s,"segments":%d`, text, e.Segments)
	case capvet.ReasonTooLarge:
		return fmt.Sprintf(`%s,"words":%d`, text, e.Words)
	case capvet.ReasonTrailing:
		return fmt.Sprintf(`%s,"trailing_bytes":%d`, text, e.TrailingBytes)
	}
	return fmt.Sprintf(`%s,"required":%d`, text, e.Required)
}

func refused(e *capvet.Refusal) string {
	text := fmt.Sprintf(`"length":%d,"verdict":"refused","reason":"%v"`, e.Length, e.Reason)
	if e.Pointer > 0 {
		text += fmt.Sprintf(`,"segment":%d,"word":%d,"pointer":%d,"path":%s`, e.Position.Segment, e.Position.Word, e.Pointer,
			quoted(e.Path()))
	}
	// (the package finds one for other reasons too)
	if earlier := e.EarlierPath(); e.Reason == capvet.ReasonOverlap && earlier != "" {
		text += `,"earlier_path":` + quoted(earlier)
	}
	return text + `,"explain":` + quoted(e.Explain())
}

func differing(m capvet.Message) string {
	d, ok := m.FirstDifference()
	if !ok {
		return ""
	}
	text := fmt.Sprintf(`,"difference":{"reason":"%v","segment":%d,"word":%d,"pointers":%d`, d.Reason, d.Position.Segment,
		d.Position.Word, d.Pointers)
	if path := d.Path(); path != "" {
		text += `,"path":` + quoted(path)
	}
	return text + "}"
}

func accepted(m capvet.Message) string {
	r := m.Report()
	text := fmt.Sprintf(`"length":%d,"verdict":"accepted","segments":%d,"words":%d,"charge":%d,"depth":%d,"pointers":%d,"capabilities":%d`,
		r.Length, r.Segments, r.Words, r.Charge, r.Depth, r.Pointers, r.Capabilities)
	if canonical, err := m.AppendCanonical(nil); err == nil {
		text += fmt.Sprintf(`,"canonical":%d`, adler32.Checksum(canonical))
	}
	return fmt.Sprintf(`%s,"is_canonical":%v%s`, text, m.IsCanonical(), differing(m))
}
