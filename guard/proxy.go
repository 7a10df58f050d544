package main

import (
	"bufio"
	"bytes"
	"encoding/binary"
	"errors"
	"hash/crc32"
	"io"
	"net"

	"github.com/pires/go-proxyproto"
)

// ahead is a connection of which some bytes were read already.
type ahead struct {
	half
	reader *bufio.Reader
}

// Read returns the bytes that were read already, and then those of the connection.
func (a *ahead) Read(b []byte) (int, error) {
	if a.reader == nil {
		return a.half.Read(b)
	}
	if a.reader.Buffered() < len(b) {
		b = b[:a.reader.Buffered()]
	}
	n, err := a.reader.Read(b)
	if a.reader.Buffered() == 0 {
		a.reader = nil
	}
	return n, err
}

// introduced reads the header of the PROXY protocol. It returns a connection for the bytes after it, and both addresses of
// the client's connection to the proxy.
func introduced(conn half) (half, *proxyproto.Header, error) {
	reader := bufio.NewReaderSize(conn, small)
	head, err := headerIn(reader)
	if err != nil {
		return conn, nil, err
	}
	header, err := proxyproto.Read(bufio.NewReaderSize(bytes.NewReader(head), len(head)))
	if err != nil {
		return conn, nil, err
	}
	// (the library takes any text for an address of IPv6)
	if source, target, ok := header.TCPAddrs(); ok && (source.IP == nil || target.IP == nil) {
		return conn, nil, proxyproto.ErrInvalidAddress
	}
	if reader.Buffered() == 0 {
		return conn, header, nil
	}
	return &ahead{conn, reader}, header, nil
}

// fixedLength is how many bytes of a header of version 2 come before the addresses.
const fixedLength = 16

// headerIn reads the bytes of a header, in however many pieces they come. (The library wants them in one piece, of which it
// takes at most what the buffer of its reader holds.)
func headerIn(reader *bufio.Reader) ([]byte, error) {
	first, err := reader.Peek(1)
	switch {
	case err != nil:
		return nil, err
	case first[0] == proxyproto.SIGV1[0]:
		return reader.ReadSlice('\n')
	case first[0] != proxyproto.SIGV2[0]:
		return nil, proxyproto.ErrNoProxyProtocol
	}
	head := make([]byte, fixedLength)
	if _, err := io.ReadFull(reader, head); err != nil {
		return nil, err
	}
	if !bytes.HasPrefix(head, proxyproto.SIGV2) {
		return nil, proxyproto.ErrNoProxyProtocol
	}
	head = append(head, make([]byte, binary.BigEndian.Uint16(head[14:]))...)
	if _, err := io.ReadFull(reader, head[fixedLength:]); err != nil {
		return nil, err
	}
	return head, checkSum(head)
}

var errChecksum = errors.New("the PROXY header has a wrong checksum")

// checkSum compares the checksum of a header of version 2, if it has one.
func checkSum(head []byte) error {
	addresses := map[byte]int{1: 12, 2: 36, 3: 216}[head[13]>>4]
	for at := fixedLength + addresses; at+3 <= len(head); {
		value := at + 3
		next := value + int(binary.BigEndian.Uint16(head[at+1:]))
		if proxyproto.PP2Type(head[at]) == proxyproto.PP2_TYPE_CRC32C && next == value+4 && next <= len(head) {
			summed := append([]byte(nil), head...)
			copy(summed[value:next], make([]byte, 4))
			if crc32.Checksum(summed, crc32.MakeTable(crc32.Castagnoli)) != binary.BigEndian.Uint32(head[value:]) {
				return errChecksum
			}
		}
		at = next
	}
	return nil
}

// headerOf returns the header of the PROXY protocol about a client. Version 2 sends addresses of two families as those of IPv6.
// Version 1 has no form for them, and so sends none.
func headerOf(version int, source, target net.Addr) *proxyproto.Header {
	header := proxyproto.HeaderProxyFromAddrs(byte(version), source, target)
	from, to, ok := header.TCPAddrs()
	switch {
	case !ok || (from.IP.To4() == nil) == (to.IP.To4() == nil):
	case version == 1:
		return proxyproto.HeaderProxyFromAddrs(1, nil, nil)
	default:
		header.TransportProtocol = proxyproto.TCPv6
	}
	return header
}
