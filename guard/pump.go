package main

import (
	"errors"

	"capvet.invalid/capvet"
)

// pump passes on what comes in one direction, until it ends.
type pump interface {
	run() ending
}

// copier passes on bytes as they come, and vets nothing.
type copier struct {
	link      link
	buffer    buffer
	direction direction
	number    uint64
	offset    int64
}

func (c *copier) run() ending {
	defer c.buffer.close()
	for {
		n, cause, err := c.link.read(c.buffer.free(), false, c.buffer.isWide())
		if cause == quiet {
			c.buffer.shrink()
			continue
		}
		if cause == "" {
			c.link.session.await(c.direction, 0, n)
			cause, err = c.link.write(c.buffer.bytes[:n])
		}
		if cause != "" {
			return ending{cause: cause, direction: c.direction, message: c.number, offset: c.offset, err: err}
		}
		c.link.session.count(c.direction, 0, n)
		c.offset += int64(n)
		if n == len(c.buffer.bytes) {
			c.buffer.widen()
		}
	}
}

// filter passes on the accepted messages of a plain stream, as they came or packed.
type filter struct {
	link      link
	buffer    buffer
	direction direction
	vetter    vetter
	packer    *packer // nil if the receiver takes plain messages
	number    uint64
	offset    int64
	isFull    bool // the last read filled the buffer
}

func (f *filter) run() ending {
	defer f.buffer.close()
	for {
		required, end := f.pass()
		if end.cause == "" {
			end = f.fill(required)
		}
		switch {
		case end.cause == "":
			continue
		case f.goesOn(end):
			return f.copyRest(end)
		}
		return f.at(end)
	}
}

// at returns an ending with the place of the next message.
func (f *filter) at(end ending) ending {
	end.direction, end.message, end.offset = f.direction, f.number, f.offset
	end.guess = guessOf(end.err, end.message, false)
	return end
}

// pass passes on the messages that are whole and accepted. It returns how many bytes the next one has at least, or 0 if
// nothing of it is there. The cause of the ending is empty if there is none.
func (f *filter) pass() (required int, end ending) {
	for {
		count, length, wrong := f.vetter.all(f.buffer.held())
		if end = f.deliver(count, length); end.cause != "" {
			return 0, end
		}
		if required = missing(wrong); required > 0 {
			if f.link.started == 0 {
				f.link.start()
			}
			return required, ending{}
		}
		if wrong == nil {
			return 0, ending{}
		}
		if count > 0 {
			// (the buffer has dropped the messages before, and a refusal has its bytes in place)
			continue
		}
		if end, isPassed := f.refuse(wrong); !isPassed {
			return 0, end
		}
	}
}

// deliver writes messages that the buffer starts with, and counts them.
func (f *filter) deliver(count, length int) (end ending) {
	if count == 0 {
		return ending{}
	}
	f.link.session.await(f.direction, count, length)
	b, write := f.buffer.bytes[:length], f.link.write
	if f.packer != nil {
		write = func(b []byte) (cause, error) { return f.packer.deliver(b, f.link.write) }
	}
	if end.cause, end.err = write(b); end.cause != "" {
		return end
	}
	f.number, f.offset = f.number+uint64(count), f.offset+int64(length)
	f.buffer.drop(length)
	f.link.started = 0
	f.link.session.count(f.direction, count, length)
	return ending{}
}

// refuse returns the ending for a refused message, of which all or a part is in the buffer. A dry run passes on a message that
// is whole.
func (f *filter) refuse(wrong error) (end ending, isPassed bool) {
	frame, s := f.buffer.held(), f.link.session
	end = f.at(ending{cause: refused, err: wrong, path: f.vetter.path(wrong)})
	var refusal *capvet.Refusal
	isWhole := errors.As(wrong, &refusal)
	if isWhole {
		frame = refusal.Unvetted()
	}
	s.guard.folder.keep(s, end, frame)
	if !isWhole || !s.isTrial() {
		return end, false
	}
	s.report(end)
	end = f.deliver(1, len(frame))
	return end, end.cause == ""
}

// goesOn reports whether a dry run passes on what follows as bytes. A stream that is packed anew can't be passed on so.
func (f *filter) goesOn(end ending) bool {
	isOurs := end.cause == refused || end.cause == messageTimeout || end.cause == noMemory
	return f.link.session.isTrial() && f.packer == nil && isOurs
}

// copyRest reports what would end the connection, and then passes on all bytes that come.
func (f *filter) copyRest(end ending) ending {
	f.link.session.report(f.at(end))
	held := f.buffer.held()
	if cause, err := f.link.write(held); cause != "" {
		return f.at(ending{cause: cause, err: err})
	}
	f.link.session.count(f.direction, 0, len(held))
	offset := f.offset + int64(len(held))
	f.buffer.close()
	rest := copier{link: f.link, buffer: newBuffer(f.buffer.budget), direction: f.direction, number: f.number, offset: offset}
	return rest.run()
}

// fill reads once between two messages, or until the required bytes of one are there.
func (f *filter) fill(required int) ending {
	if f.isFull {
		f.buffer.widen()
		f.isFull = false
	}
	for {
		if f.buffer.length > 0 && !f.buffer.fit(required) {
			return ending{cause: noMemory}
		}
		free := f.buffer.free()
		n, cause, err := f.link.read(free, f.buffer.length > 0, f.buffer.isWide())
		switch {
		case cause == quiet:
			f.buffer.shrink()
			continue
		case cause == closed && f.buffer.length > 0:
			_, _, err = f.vetter.all(f.buffer.held())
			end, _ := f.refuse(err)
			return end
		case cause != "":
			return ending{cause: cause, err: err}
		}
		f.isFull = n == len(free)
		f.buffer.length += n
		if f.buffer.length >= required {
			return ending{}
		}
	}
}
