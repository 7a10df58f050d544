package main

import (
	"errors"
	"io"
	"time"

	"capvet.invalid/capvet"
)

// packer writes accepted messages in packed form, each by itself.
type packer struct {
	limits *capvet.Limits
	memory *budget
	packed []byte
}

// deliver packs the messages of b, and writes them once they are ample.
func (p *packer) deliver(b []byte, write func([]byte) (cause, error)) (cause, error) {
	for len(b) > 0 {
		length, err := capvet.FrameLength(b, p.limits)
		if err != nil {
			return failed, err
		}
		if length > ample {
			// (packing adds at most a quarter, and a large message has a buffer of its own)
			if most := length / 4 * 5; p.memory.take(most) {
				defer p.memory.give(most)
			} else {
				return noMemory, nil
			}
		}
		if p.packed, err = capvet.AppendPackedMessage(p.packed, b[:length], p.limits); err != nil {
			return failed, err
		}
		if b = b[length:]; len(b) == 0 || len(p.packed) >= ample {
			if cause, err := write(p.packed); cause != "" {
				return cause, err
			}
			p.clear()
		}
	}
	return "", nil
}

// clear empties the buffer, and keeps only a small one.
func (p *packer) clear() {
	p.packed = p.packed[:0]
	if cap(p.packed) > small {
		p.packed = nil
	}
}

// unpacker passes on the accepted messages of a packed stream, plain or packed anew.
type unpacker struct {
	link      link
	direction direction
	vetter    vetter
	packer    *packer // nil if the receiver takes plain messages
	scanner   *capvet.Scanner
	memory    *budget
	used      int    // bytes of the budget that the scanner uses
	waiting   []byte // messages that are to be written together
	count     int    // how many
	cause     cause  // why the last read ended the stream
	inside    bool
	ready     time.Time // when the last bytes came that the scanner asked for, or when it began
}

// change says whether the buffer of the scanner may grow. Small ones aren't part of the budget.
func (u *unpacker) change(bytes int) bool {
	if bytes <= small && bytes >= -small {
		return true
	}
	if bytes > 0 && !u.memory.take(bytes) {
		return false
	}
	if bytes < 0 {
		u.memory.give(-bytes)
	}
	u.used += bytes
	return true
}

func (u *unpacker) run() ending {
	u.scanner.SetBound(u.change)
	defer func() { u.memory.give(u.used) }()
	end := ending{direction: u.direction}
	for end.cause == "" && u.scan() {
		var refusal *capvet.Refusal
		if errors.As(u.scanner.Err(), &refusal) {
			end = u.refuse(refusal)
			continue
		}
		end.cause, end.err = u.deliver(u.scanner.Message().Bytes())
	}
	if end.cause == "" {
		end.cause, end.err = u.ended(u.scanner.Err())
		end = u.at(end)
		if end.cause == refused {
			u.link.session.guard.folder.keep(u.link.session, end, nil)
		}
	}
	// (what comes before the end arrives, whatever the end is)
	if cause, err := u.flush(); cause != "" {
		end.cause, end.err = cause, err
	}
	return u.at(end)
}

// at returns an ending with the place of the message that was scanned.
func (u *unpacker) at(end ending) ending {
	end.direction, end.message, end.offset = u.direction, uint64(u.scanner.Number()), u.scanner.Offset()
	end.guess = guessOf(end.err, end.message, true)
	return end
}

// refuse returns the ending for a refused message. A dry run passes it on.
func (u *unpacker) refuse(refusal *capvet.Refusal) ending {
	s, frame := u.link.session, refusal.Unvetted()
	end := u.at(ending{cause: refused, err: refusal, path: u.vetter.path(refusal)})
	s.guard.folder.keep(s, end, frame)
	if !s.isTrial() {
		return end
	}
	s.report(end)
	cause, err := u.deliver(frame)
	return ending{cause: cause, err: err}
}

// scan scans the next message, accepted or refused, and notes how long it took from its last bytes to the verdict.
func (u *unpacker) scan() bool {
	u.ready = time.Now()
	var refusal *capvet.Refusal
	found := u.scanner.Scan() || errors.As(u.scanner.Err(), &refusal)
	if found {
		u.vetter.metrics.vetSeconds.Observe(time.Since(u.ready).Seconds())
	}
	return found
}

// deliver passes on a message. Small ones are written once no other one is whole, since a write takes longer than a message.
func (u *unpacker) deliver(b []byte) (cause, error) {
	if len(u.waiting)+len(b) > ample {
		if cause, err := u.flush(); cause != "" {
			return cause, err
		}
	}
	u.inside = false
	if len(b) > ample {
		return u.write(b, 1)
	}
	u.waiting = append(u.waiting, b...)
	u.count++
	return "", nil
}

// flush writes the messages that wait.
func (u *unpacker) flush() (cause, error) {
	if u.count == 0 {
		return "", nil
	}
	b, count := u.waiting, u.count
	u.waiting, u.count = u.waiting[:0], 0
	return u.write(b, count)
}

// write writes messages and counts them.
func (u *unpacker) write(b []byte, count int) (cause, error) {
	u.link.session.await(u.direction, count, len(b))
	write := u.link.write
	if u.packer != nil {
		write = func(b []byte) (cause, error) { return u.packer.deliver(b, u.link.write) }
	}
	if cause, err := write(b); cause != "" {
		return cause, err
	}
	u.link.session.count(u.direction, count, len(b))
	return "", nil
}

// ended returns why the scan ended.
func (u *unpacker) ended(err error) (cause, error) {
	var frame *capvet.FrameError
	switch {
	case err == nil:
		return closed, nil
	case errors.As(err, &frame):
		return refused, err
	case err == capvet.ErrNoSpace:
		return noMemory, nil
	case err == errEnded:
		return u.cause, nil
	}
	return u.cause, err
}

// errEnded is the error of a read after which u.cause says why the connection ends.
var errEnded = errors.New("the connection ends")

// Read reads for the scanner.
func (u *unpacker) Read(b []byte) (int, error) {
	if cause, err := u.flush(); cause != "" {
		if err == nil {
			err = errEnded
		}
		u.cause = cause
		return 0, err
	}
	if inside := u.scanner.Inside(); inside != u.inside {
		u.inside = inside
		u.link.start()
	}
	n, cause, err := u.link.read(b, u.inside, false)
	u.ready = time.Now()
	switch {
	case cause == "":
		return n, nil
	case cause == closed:
		return 0, io.EOF
	case err == nil:
		err = errEnded
	}
	u.cause = cause
	return 0, err
}
