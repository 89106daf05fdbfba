package jeihpal

/*
#include <jeihpal.h>
*/
import "C"

// View is a small far terminal that reads frames.
type View struct{ shown }

var viewReads = reads{
	look: func(w *word, look *C.jeihpal_look) C.int32_t { return C.jeihpal_view_look(viewOf(w), look) },
	cell: func(w *word, row, col C.uint16_t, cell *C.jeihpal_cell) C.int32_t {
		return C.jeihpal_view_cell(viewOf(w), row, col, cell)
	},
	rowCells: func(w *word, row C.uint16_t, to *C.jeihpal_cell, room C.size_t, count *C.size_t, wrapped *C.uint8_t) C.int32_t {
		return C.jeihpal_view_row_cells(viewOf(w), row, to, room, count, wrapped)
	},
	rowText: func(w *word, row C.uint16_t, to *C.uint8_t, capacity C.size_t, length *C.size_t) C.int32_t {
		return C.jeihpal_view_row_text(viewOf(w), row, to, capacity, length)
	},
}

// NewView makes a view of this size that shows nothing.
func NewView(rows, cols uint16) (*View, error) { return NewViewWithin(rows, cols, AnySize) }

// NewViewWithin makes a view of a size that a stranger chooses: one of more than mostCells cells is refused with
// ErrTooLarge.
func NewViewWithin(rows, cols uint16, mostCells uint) (*View, error) {
	view := &View{shown{reads: viewReads}}
	err := view.made(func(w *word) { C.jeihpal_view_close(viewOf(w)) }, func(w *word) C.int32_t {
		return C.jeihpal_view_new_within(viewOf(w), C.uint16_t(rows), C.uint16_t(cols), C.size_t(mostCells))
	})
	if err != nil {
		return nil, err
	}
	return view, nil
}

// Write reads the next bytes. They may be cut anywhere. What a frame changes is shown once its last byte has been read.
func (v *View) Write(bytes []byte) (int, error) {
	err := v.act(func(w *word) C.int32_t {
		return C.jeihpal_view_advance(viewOf(w), front(bytes), C.size_t(len(bytes)))
	})
	if err != nil {
		return 0, err
	}
	return len(bytes), nil
}

// Stop parses the bytes that are held back, and shows what they change: for a frame that has begun, but whose end
// doesn't come.
func (v *View) Stop() error {
	return v.act(func(w *word) C.int32_t { return C.jeihpal_view_stop(viewOf(w)) })
}

// HeldBytes returns how many bytes are held back until the end of a frame: at most 2,097,150.
func (v *View) HeldBytes() (int, error) {
	var count C.size_t
	err := v.act(func(w *word) C.int32_t { return C.jeihpal_view_held(viewOf(w), &count) })
	return int(count), err
}
