package jeihpal

/*
#include <jeihpal.h>
*/
import "C"

import (
	"runtime"
	"sync"
	"unsafe"
)

// word is what the library keeps an object in. All kinds have the same.
type word = C.jeihpal_hub

func viewOf(w *word) *C.jeihpal_view           { return (*C.jeihpal_view)(unsafe.Pointer(w)) }
func screenOf(w *word) *C.jeihpal_screen       { return (*C.jeihpal_screen)(unsafe.Pointer(w)) }
func recordingOf(w *word) *C.jeihpal_recording { return (*C.jeihpal_recording)(unsafe.Pointer(w)) }
func filterOf(w *word) *C.jeihpal_filter       { return (*C.jeihpal_filter)(unsafe.Pointer(w)) }

// object is one of the library's objects, with at most one call at a time.
type object struct {
	lock  sync.Mutex
	word  *word
	close func(*word)
}

// made calls the function that makes an object, and keeps the one that closes it.
func (o *object) made(close func(*word), make func(*word) C.int32_t) error {
	o.word, o.close = new(word), close
	if err := refusal(make(o.word)); err != nil {
		return err
	}
	runtime.SetFinalizer(o, (*object).Close)
	return nil
}

// call makes one of the library's calls on the object, and returns its result.
func (o *object) call(function func(*word) C.int32_t) (C.int32_t, error) {
	o.lock.Lock()
	defer o.lock.Unlock()
	answer := function(o.word)
	return answer, refusal(answer)
}

// act makes a call whose only result is success or a refusal.
func (o *object) act(function func(*word) C.int32_t) error {
	_, err := o.call(function)
	return err
}

// text returns the text that a call copies, and the call's result.
func (o *object) text(function func(*word, *C.uint8_t, C.size_t, *C.size_t) C.int32_t) ([]byte, C.int32_t, error) {
	o.lock.Lock()
	defer o.lock.Unlock()
	return whole(func(to *C.uint8_t, capacity C.size_t, length *C.size_t) C.int32_t {
		return function(o.word, to, capacity, length)
	})
}

// Close frees the object. Closing it twice is fine.
func (o *object) Close() error {
	o.lock.Lock()
	defer o.lock.Unlock()
	o.close(o.word)
	runtime.SetFinalizer(o, nil)
	return nil
}
