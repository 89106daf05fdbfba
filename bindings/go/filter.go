package jeihpal

/*
#include <jeihpal.h>
*/
import "C"

// Filter draws a program's lines, on the way to a Hub or a Screen: after ESC ( 0 it replaces the letters lqqk by the
// edge of a box. It gives all other bytes on as they are. Directly after a sequence that vt100 doesn't know it adds
// others that do the same, such as CSI 4 m after the curly underline CSI 4:3 m.
type Filter struct{ object }

// NewFilter makes a filter through which nothing has passed.
func NewFilter() (*Filter, error) {
	filter := &Filter{}
	err := filter.made(func(w *word) { C.jeihpal_filter_close(filterOf(w)) }, func(w *word) C.int32_t {
		return C.jeihpal_filter_new(filterOf(w))
	})
	if err != nil {
		return nil, err
	}
	return filter, nil
}

// Pass reads the next piece of a program's output, and returns the bytes to use in its place. It may be cut anywhere.
// After an error the piece has not passed, and the call may be repeated with it.
func (f *Filter) Pass(bytes []byte) ([]byte, error) {
	passed := false // the text may be asked for again, with more room
	given, _, err := f.text(func(w *word, to *C.uint8_t, capacity C.size_t, length *C.size_t) C.int32_t {
		if !passed {
			if answer := C.jeihpal_filter_pass(filterOf(w), front(bytes), C.size_t(len(bytes))); answer < 0 {
				return answer
			}
			passed = true
		}
		return C.jeihpal_filter_given(filterOf(w), to, capacity, length)
	})
	return given, err
}
