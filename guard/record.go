package main

import (
	"encoding/json"
	"errors"
	"fmt"
	"strconv"
	"strings"
	"time"
	"unicode/utf8"

	"capvet.invalid/capvet"
)

// record is a line of the log about a connection, or about the guard itself.
type record struct {
	Time      string  `json:"time"`
	Event     string  `json:"event"`
	Address   string  `json:"address,omitempty"` // of the guard
	Peer      string  `json:"peer,omitempty"`
	Direction string  `json:"direction,omitempty"`
	Message   *uint64 `json:"message,omitempty"`
	Reason    string  `json:"reason,omitempty"`
	Segment   *uint32 `json:"segment,omitempty"`
	Word      *uint32 `json:"word,omitempty"`
	Pointer   *uint64 `json:"pointer,omitempty"`
	Path      string  `json:"path,omitempty"`
	Offset    *int64  `json:"offset,omitempty"`
	Guess     guess   `json:"guess,omitempty"`
	Text      string  `json:"text,omitempty"`

	// of a connection that has ended
	Certificate string   `json:"certificate,omitempty"`
	Server      string   `json:"server,omitempty"`
	Cause       string   `json:"cause,omitempty"`
	Seconds     *float64 `json:"seconds,omitempty"`
	Requests    *traffic `json:"requests,omitempty"`
	Replies     *traffic `json:"replies,omitempty"`
}

// aboutMessage returns the record about an ending.
func aboutMessage(peer string, e ending) record {
	r := record{Event: string(e.cause), Peer: peer, Direction: e.direction.String(), Message: &e.message, Offset: &e.offset,
		Reason: e.reason(), Path: e.path, Guess: e.guess, Text: e.text()}
	var refusal *capvet.Refusal
	if errors.As(e.err, &refusal) && refusal.Pointer > 0 {
		r.Segment, r.Word, r.Pointer = &refusal.Position.Segment, &refusal.Position.Word, &refusal.Pointer
	}
	return r
}

// format returns a record as a line.
func (l *logger) format(r record) string {
	r.Time = time.Now().UTC().Format(time.RFC3339)
	if !l.isJSON {
		return r.line() + "\n"
	}
	b, err := json.Marshal(r)
	if err != nil {
		return ""
	}
	return string(b) + "\n"
}

// line returns the record as text: "message N: " and the words of the program follow the peer and the direction.
func (r record) line() string {
	line := "capvet-guard: " + r.Time
	if r.Peer != "" {
		line += " " + word(r.Peer)
	}
	text := printable(r.Text)
	if r.Direction != "" {
		line += fmt.Sprintf(" %s message %d: %s offset %d", r.Direction, *r.Message, text, *r.Offset)
		if r.Path != "" {
			line += " path " + r.Path
		}
		if r.Guess != "" {
			line += " guess " + string(r.Guess)
		}
		return line
	}
	if r.Requests != nil {
		return line + r.summary()
	}
	line += " " + r.Event
	if r.Address != "" {
		line += " " + word(r.Address)
	}
	if text != "" {
		line += ": " + text
	}
	return line
}

// summary returns the text about a connection that has ended.
func (r record) summary() string {
	text := fmt.Sprintf(" connection: %s after %.3f s, requests %d messages %d bytes, replies %d messages %d bytes, server %s", r.Cause,
		*r.Seconds, r.Requests.Messages, r.Requests.Bytes, r.Replies.Messages, r.Replies.Bytes, word(r.Server))
	if r.Certificate != "" {
		text += " certificate " + word(r.Certificate)
	}
	return text
}

// maxText is how many bytes of a text that a peer has chosen are written, as those of a name in its certificate.
const maxText = 1000

// short returns the first bytes of a text.
func short(text string) string {
	if len(text) <= maxText {
		return text
	}
	return strings.ToValidUTF8(text[:maxText], "") + "..."
}

// printable returns a text that is at most one line, whatever a peer has put into it.
func printable(text string) string {
	if utf8.ValidString(text) && strings.IndexFunc(text, func(c rune) bool { return !strconv.IsPrint(c) }) < 0 {
		return text
	}
	quoted := strconv.Quote(text)
	return quoted[1 : len(quoted)-1]
}

// word returns a name that is one word, whatever a peer has put into it.
func word(name string) string {
	if name == printable(name) && !strings.ContainsAny(name, ` "`) {
		return name
	}
	return strconv.Quote(name)
}
