package main

import (
	"sync/atomic"
	"time"
)

// begin is what times are counted from.
var begin = time.Now()

// now returns the time since the guard began. (It never goes back.)
func now() time.Duration { return time.Since(begin) }

// activity is when anything last moved on a connection.
type activity struct{ last atomic.Int64 }

func (a *activity) touch() { a.last.Store(int64(now())) }

func (a *activity) since() time.Duration { return now() - time.Duration(a.last.Load()) }
