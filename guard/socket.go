package main

import (
	"crypto/tls"
	"net"
	"syscall"

	"golang.org/x/sys/unix"
)

// socketOf returns the socket of a connection, or nil if it has none.
func socketOf(conn net.Conn) syscall.Conn {
	switch c := conn.(type) {
	case *tls.Conn:
		return socketOf(c.NetConn())
	case *metered:
		return socketOf(c.half)
	case *ahead:
		return socketOf(c.half)
	case syscall.Conn:
		return c
	}
	return nil
}

// unsent returns how many bytes were written to a connection that its peer has not got. It is 0 if nobody knows.
func unsent(conn net.Conn) (n int) {
	socket := socketOf(conn)
	if socket == nil {
		return 0
	}
	raw, err := socket.SyscallConn()
	if err != nil {
		return 0
	}
	err = raw.Control(func(fd uintptr) {
		if n, err = unix.IoctlGetInt(int(fd), unix.TIOCOUTQ); err != nil {
			n = 0
		}
	})
	if err != nil {
		return 0
	}
	return n
}
