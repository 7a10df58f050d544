package main

import "encoding/binary"

// words appends numbers as words.
func words(b []byte, numbers ...uint64) []byte {
	for _, n := range numbers {
		b = binary.LittleEndian.AppendUint64(b, n)
	}
	return b
}

// message returns a struct of two data words, the connection and the number, with a pointer to a list of this many words.
func message(connection, number, list int) []byte {
	segment := 4 + list
	b := words(make([]byte, 0, 8+8*segment), uint64(segment)<<32)
	b = words(b, 2<<32|1<<48, uint64(connection), uint64(number), 1|5<<32|uint64(list)<<35)
	for i := 0; i < list; i++ {
		b = words(b, uint64(connection*31+number*17+i)*0x9e3779b97f4a7c15)
	}
	return b
}

// cycle returns a struct whose pointer leads back to it.
func cycle() []byte {
	return words(nil, 1<<32, 1<<48|0xfffffffc)
}

// connectionOf returns the connection in a message.
func connectionOf(b []byte) int {
	return int(binary.LittleEndian.Uint64(b[16:]))
}

// of returns a message with this many bytes in all, or a few more.
func of(bytes int) []byte {
	list := (bytes - 40) / 8
	if list < 0 {
		list = 0
	}
	return message(1, 2, list)
}
