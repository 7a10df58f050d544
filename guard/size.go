package main

import (
	"errors"
	"math"
	"strconv"
	"strings"
)

// units are the bytes of each unit of a size.
var units = map[string]uint64{"kB": 1e3, "MB": 1e6, "GB": 1e9, "KiB": 1 << 10, "MiB": 1 << 20, "GiB": 1 << 30}

// errNoSize reports whether a text ends with a unit, and is no size all the same.
var errNoSize = errors.New("a size is a number before a unit, as in 64MiB or 40MB")

// bytesOf reads a size with a unit, such as 64MiB, as a number of bytes. The bool reports whether the text ends with a unit.
func bytesOf(text string) (uint64, bool, error) {
	for unit, each := range units {
		if digits := strings.TrimSuffix(text, unit); digits != text {
			number, err := strconv.ParseUint(digits, 10, 64)
			if err != nil || number > math.MaxInt64/each {
				return 0, true, errNoSize
			}
			return number * each, true, nil
		}
	}
	return 0, false, nil
}

// wordCount is a number of words of 8 bytes. It is a flag.Value, and a size with a unit is one in bytes.
type wordCount uint64

// String returns the number.
func (w *wordCount) String() string {
	return strconv.FormatUint(uint64(*w), 10)
}

// Set reads a number of words, or a size such as 64MiB.
func (w *wordCount) Set(text string) error {
	size, isSize, err := bytesOf(text)
	if err != nil {
		return err
	}
	if isSize {
		*w = wordCount(size / 8)
		return nil
	}
	number, err := strconv.ParseUint(text, 0, 64)
	if err != nil {
		return errors.New("it is a number of words of 8 bytes, or a size such as 64MiB or 40MB")
	}
	*w = wordCount(number)
	return nil
}

// byteCount is a number of bytes. It is a flag.Value, and a size may have a unit.
type byteCount int64

// String returns the number.
func (b *byteCount) String() string {
	return strconv.FormatInt(int64(*b), 10)
}

// Set reads a number of bytes, or a size such as 64MiB.
func (b *byteCount) Set(text string) error {
	size, isSize, err := bytesOf(text)
	if err != nil {
		return err
	}
	if isSize {
		*b = byteCount(size)
		return nil
	}
	number, err := strconv.ParseInt(text, 0, 64)
	if err != nil {
		return errors.New("it is a number of bytes, or a size such as 64MiB or 40MB")
	}
	*b = byteCount(number)
	return nil
}
