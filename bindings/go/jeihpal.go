// Package jeihpal has terminal screens that arrive whole.
//
// A [Screen] reads a program's bytes. A [Hub] makes frames of such a screen for each of its clients, and a [View] is the
// far terminal that reads them: it shows whole screens alone. A [Recording] is what a program wrote, and when.
//
// An object may be used by any goroutine: a lock lets one call at a time in. Close frees it; so does the garbage
// collector, later. A closed object refuses each call with [ErrClosed].
//
// The package links the library that ./build --library leaves in the checkout, or with the build tag jeihpal_installed
// the one that pkg-config finds.
package jeihpal

/*
#include <jeihpal.h>
*/
import "C"

import (
	"errors"
	"fmt"
	"math"
)

// AnySize is a limit of cells that no size exceeds.
const AnySize uint = math.MaxUint

// The errors of refused calls.
var (
	ErrClosed        = errors.New("jeihpal: the object is closed")
	ErrBadSize       = errors.New("jeihpal: no rows, or no columns")
	ErrMemory        = errors.New("jeihpal: there was no memory")
	ErrFailed        = errors.New("jeihpal: the screen has failed, since an earlier call found no memory")
	ErrUnknownClient = errors.New("jeihpal: the client has ended, or never was")
	ErrNotOwed       = errors.New("jeihpal: fewer bytes are owed")
	ErrNoCell        = errors.New("jeihpal: the place is outside the screen")
	ErrNoHeader      = errors.New("jeihpal: the recording's first line is no header")
	ErrCompressed    = errors.New("jeihpal: the recording is a compressed file")
	ErrNoEvent       = errors.New("jeihpal: the recording has fewer events")
	ErrTooLarge      = errors.New("jeihpal: the size has more cells than is allowed")
)

var refusals = map[C.int32_t]error{
	C.JEIHPAL_CLOSED:         ErrClosed,
	C.JEIHPAL_BAD_SIZE:       ErrBadSize,
	C.JEIHPAL_MEMORY:         ErrMemory,
	C.JEIHPAL_FAILED:         ErrFailed,
	C.JEIHPAL_UNKNOWN_CLIENT: ErrUnknownClient,
	C.JEIHPAL_NOT_OWED:       ErrNotOwed,
	C.JEIHPAL_NO_CELL:        ErrNoCell,
	C.JEIHPAL_NO_HEADER:      ErrNoHeader,
	C.JEIHPAL_COMPRESSED:     ErrCompressed,
	C.JEIHPAL_NO_EVENT:       ErrNoEvent,
	C.JEIHPAL_TOO_LARGE:      ErrTooLarge,
}

// refusal returns the error for a result, or nil if it isn't a refusal.
func refusal(answer C.int32_t) error {
	if answer >= 0 {
		return nil
	}
	if known, ok := refusals[answer]; ok {
		return known
	}
	return fmt.Errorf("jeihpal: refused by %d", int(answer))
}

// front points to the first byte; if there are no bytes, to one that isn't read, since a null pointer isn't allowed.
func front(bytes []byte) *C.uint8_t {
	if len(bytes) == 0 {
		return new(C.uint8_t)
	}
	return (*C.uint8_t)(&bytes[0])
}

// copier copies a text of the library's into room, sets how long it is in all, and returns the call's result.
type copier func(to *C.uint8_t, capacity C.size_t, length *C.size_t) C.int32_t

// whole returns all of a text that is copied, and the call's result.
func whole(copies copier) ([]byte, C.int32_t, error) {
	room := make([]byte, 1024)
	for {
		var length C.size_t
		answer := copies(front(room), C.size_t(len(room)), &length)
		if err := refusal(answer); err != nil {
			return nil, answer, err
		}
		if int(length) <= len(room) {
			return room[:length], answer, nil
		}
		room = make([]byte, length)
	}
}
