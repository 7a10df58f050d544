// Vet vets the messages of a file or of standard input in process, and prints for each the line of
// `capvet vet --strict --unamplified`.
//
//	PKG_CONFIG_PATH=PREFIX/lib/pkgconfig go run ./vet [FILE]
//
// The status is 0 if all messages are accepted, 1 if one is not, 2 for a wrong command line, and 3 if the input can't be
// read.
package main

import (
	"errors"
	"fmt"
	"io"
	"os"

	"capvet.invalid/capvet"
)

func main() {
	input := os.Stdin
	switch len(os.Args) {
	case 1:
	case 2:
		file, err := os.Open(os.Args[1])
		if err != nil {
			fmt.Fprintln(os.Stderr, "vet:", err)
			os.Exit(3)
		}
		input = file
	default:
		fmt.Fprintln(os.Stderr, "usage: vet [FILE]")
		os.Exit(2)
	}
	os.Exit(vet(input))
}

// vet prints the line of each message of a stream, and returns the status.
func vet(stream io.Reader) int {
	status := 0
	s := capvet.NewScanner(stream, nil)
	for {
		for s.Scan() {
			fmt.Printf("message %d: %v\n", s.Number(), s.Message().Report())
		}
		var refusal *capvet.Refusal
		if !errors.As(s.Err(), &refusal) {
			break
		}
		fmt.Printf("message %d: %s\n", refusal.Number, refusal.Line())
		status = 1
	}
	err := s.Err()
	if err == nil {
		return status
	}
	fmt.Fprintf(os.Stderr, "vet: message %d: %v\n", s.Number(), err)
	var frame *capvet.FrameError
	if errors.As(err, &frame) {
		return 1
	}
	return 3
}
