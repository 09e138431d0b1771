package jilqamur

// #include "calls.h"
import "C"

import (
	"errors"
	"runtime"
	"sync"
	"unsafe"
)

// ErrCopied is what each call returns of a copy of a value, as of an [End]: the value itself has to be used.
var ErrCopied = errors.New("jilqamur: this is a copy of a value")

// noCopy makes go vet tell of values that are copied.
type noCopy struct{}

func (*noCopy) Lock()   {}
func (*noCopy) Unlock() {}

// owned is a handle, with the memory that its calls use again. It is apart from the value that users hold, so that the
// finalizer is never set on a part of something else.
type owned[H any] struct {
	mutex  sync.Mutex
	handle *H // in the memory of C; nil once it is closed
	free   func(*H) C.uint32_t
	left   left
}

// close frees the handle, once a call of another goroutine has ended.
func (o *owned[H]) close() error {
	o.mutex.Lock()
	defer o.mutex.Unlock()
	if o.handle == nil {
		return ErrClosed
	}
	answer := o.free(o.handle)
	C.free(unsafe.Pointer(o.handle))
	o.handle, o.left = nil, left{}
	return done(answer)
}

// owner is what a value of this package holds: its handle, and where the value itself is.
type owner[H any] struct {
	_     noCopy
	self  *owner[H]
	owned *owned[H]
}

// ErrVersion says that the library that is linked isn't of this package's version.
var ErrVersion = errors.New("jilqamur: the library is of another version than the package")

// Version is the version of the library that is linked: its three parts.
func Version() (major, minor, patch int) {
	number := int(C.jilqamur_version())
	return number / 10000, number / 100 % 100, number % 100
}

// open opens a handle.
func (o *owner[H]) open(open, free func(*H) C.uint32_t) error {
	if C.jilqamur_version() != C.JILQAMUR_VERSION_NUMBER {
		return ErrVersion
	}
	handle := (*H)(C.new_handle())
	if handle == nil {
		return ErrMemory
	}
	if err := done(open(handle)); err != nil {
		C.free(unsafe.Pointer(handle))
		return err
	}
	o.self, o.owned = o, &owned[H]{handle: handle, free: free}
	runtime.SetFinalizer(o.owned, (*owned[H]).close)
	return nil
}

// check tells whether this is a value that was opened, and no copy.
func (o *owner[H]) check() error {
	switch {
	case o == nil || o.owned == nil:
		return ErrClosed
	case o.self != o:
		return ErrCopied
	}
	return nil
}

// lock is the handle, for one call: no other one overlaps it until the mutex is unlocked.
func (o *owner[H]) lock() (*owned[H], error) {
	if err := o.check(); err != nil {
		return nil, err
	}
	o.owned.mutex.Lock()
	if o.owned.handle == nil {
		o.owned.mutex.Unlock()
		return nil, ErrClosed
	}
	o.owned.left.trim()
	return o.owned, nil
}

// use makes one call.
func (o *owner[H]) use(call func(*H) C.uint32_t) error {
	owned, err := o.lock()
	if err != nil {
		return err
	}
	defer owned.mutex.Unlock()
	return done(call(owned.handle))
}

// close frees what is held.
func (o *owner[H]) close() error {
	if err := o.check(); err != nil {
		return err
	}
	runtime.SetFinalizer(o.owned, nil)
	return o.owned.close()
}
