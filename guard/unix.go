package main

import (
	"io/fs"
	"net"
	"os"
	"path/filepath"
	"sync"
	"syscall"
	"time"
)

// socketFile listens at a Unix socket. At the end it removes its file, and no other one that has come to its place.
type socketFile struct {
	*net.UnixListener
	path   string
	info   fs.FileInfo
	closed sync.Once
}

// openSocket listens at a Unix socket. One that nobody serves any more is replaced.
func openSocket(path string, mode fs.FileMode) (net.Listener, error) {
	defer locked(path)()
	if err := removeStale(path); err != nil {
		return nil, err
	}
	if mode != 0 {
		defer syscall.Umask(syscall.Umask(int(^mode.Perm()) & 0o777))
	}
	listener, err := net.ListenUnix("unix", &net.UnixAddr{Name: path, Net: "unix"})
	if err != nil {
		return nil, err
	}
	listener.SetUnlinkOnClose(false)
	info, err := os.Lstat(path)
	if err != nil {
		listener.Close()
		return nil, err
	}
	return &socketFile{UnixListener: listener, path: path, info: info}, nil
}

// Close ends the listening.
func (s *socketFile) Close() (err error) {
	s.closed.Do(func() {
		// (while this one listens, no other file has its number)
		defer locked(s.path)()
		if it, wrong := os.Lstat(s.path); wrong == nil && os.SameFile(it, s.info) {
			os.Remove(s.path)
		}
		err = s.UnixListener.Close()
	})
	return err
}

// locked locks the folder of a path, so that two guards don't replace one socket at the same time. It gives up after a second.
func locked(path string) (unlock func()) {
	const tries, pause = 100, 10 * time.Millisecond
	folder, err := os.Open(filepath.Dir(path))
	if err != nil {
		return func() {}
	}
	for i := 0; i < tries && syscall.Flock(int(folder.Fd()), syscall.LOCK_EX|syscall.LOCK_NB) == syscall.EWOULDBLOCK; i++ {
		time.Sleep(pause)
	}
	return func() { folder.Close() }
}
