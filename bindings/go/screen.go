package jeihpal

/*
#include <jeihpal.h>
*/
import "C"

// Screen is a terminal's screen made of a program's bytes, with rows that scroll off, and bytes that redraw it.
type Screen struct {
	shown
	dropped   int
	mostCells uint
}

var screenReads = reads{
	look: func(w *word, look *C.jeihpal_look) C.int32_t { return C.jeihpal_screen_look(screenOf(w), look) },
	cell: func(w *word, row, col C.uint16_t, cell *C.jeihpal_cell) C.int32_t {
		return C.jeihpal_screen_cell(screenOf(w), row, col, cell)
	},
	rowCells: func(w *word, row C.uint16_t, to *C.jeihpal_cell, room C.size_t, count *C.size_t, wrapped *C.uint8_t) C.int32_t {
		return C.jeihpal_screen_row_cells(screenOf(w), row, to, room, count, wrapped)
	},
	rowText: func(w *word, row C.uint16_t, to *C.uint8_t, capacity C.size_t, length *C.size_t) C.int32_t {
		return C.jeihpal_screen_row_text(screenOf(w), row, to, capacity, length)
	},
}

// NewScreen makes a blank screen of this size that keeps at most scrollback rows that scroll off.
func NewScreen(rows, cols uint16, scrollback uint) (*Screen, error) {
	return NewScreenWithin(rows, cols, scrollback, AnySize)
}

// NewScreenWithin makes a screen for sizes that strangers choose: one of more than mostCells cells is refused with
// ErrTooLarge, here and by Resize, also of a clone. Kept rows don't count.
func NewScreenWithin(rows, cols uint16, scrollback, mostCells uint) (*Screen, error) {
	screen := &Screen{shown: shown{reads: screenReads}, mostCells: mostCells}
	err := screen.made(closeScreen, func(w *word) C.int32_t {
		size, most := C.size_t(scrollback), C.size_t(mostCells)
		return C.jeihpal_screen_new_within(screenOf(w), C.uint16_t(rows), C.uint16_t(cols), size, most)
	})
	if err != nil {
		return nil, err
	}
	return screen, nil
}

func closeScreen(w *word) { C.jeihpal_screen_close(screenOf(w)) }

// Clone makes a copy that shows the same and keeps the same rows. It is without the requests, and without what was read
// of an unfinished character or sequence.
func (s *Screen) Clone() (*Screen, error) {
	return s.copied(func(to, from *C.jeihpal_screen) C.int32_t { return C.jeihpal_screen_clone(to, from) })
}

func (s *Screen) copied(fill func(to, from *C.jeihpal_screen) C.int32_t) (*Screen, error) {
	clone := &Screen{shown: shown{reads: screenReads}, mostCells: s.mostCells}
	err := clone.made(closeScreen, func(w *word) C.int32_t {
		s.lock.Lock()
		defer s.lock.Unlock()
		return fill(screenOf(w), screenOf(s.word))
	})
	if err != nil {
		return nil, err
	}
	return clone, nil
}

// CloneVisible makes a screen that draws on copies of the rows that are shown, kept ones too, and keeps none. So its
// redraws lead a terminal to what s shows, whether kept rows are shown or not. If a kept row is wider than the screen,
// a wide character that the right edge cuts is blank.
func (s *Screen) CloneVisible() (*Screen, error) {
	return s.copied(func(to, from *C.jeihpal_screen) C.int32_t { return C.jeihpal_screen_clone_visible(to, from) })
}

// Write reads the program's next bytes. They may be cut anywhere. After ErrMemory the screen has failed: it can still be
// read, but no bytes change it any more.
func (s *Screen) Write(bytes []byte) (int, error) {
	err := s.act(func(w *word) C.int32_t {
		return C.jeihpal_screen_process(screenOf(w), front(bytes), C.size_t(len(bytes)))
	})
	if err != nil {
		return 0, err
	}
	return len(bytes), nil
}

// Resize gives the screen another size, or the same, and ends the program's synchronized update.
func (s *Screen) Resize(rows, cols uint16) error {
	return s.act(func(w *word) C.int32_t {
		return C.jeihpal_screen_resize_within(screenOf(w), C.uint16_t(rows), C.uint16_t(cols), C.size_t(s.mostCells))
	})
}

// Scroll shows the newest kept rows, as many as rows says, above the others, or all of them if there are fewer.
func (s *Screen) Scroll(rows uint) error {
	return s.act(func(w *word) C.int32_t { return C.jeihpal_screen_scroll(screenOf(w), C.size_t(rows)) })
}

// ClearScrollback removes the kept rows of what is shown.
func (s *Screen) ClearScrollback() error {
	return s.act(func(w *word) C.int32_t { return C.jeihpal_screen_clear_scrollback(screenOf(w)) })
}

// read returns the text that a call without further parameters copies.
func (s *Screen) read(copies func(*C.jeihpal_screen, *C.uint8_t, C.size_t, *C.size_t) C.int32_t) ([]byte, error) {
	text, _, err := s.text(func(w *word, to *C.uint8_t, capacity C.size_t, length *C.size_t) C.int32_t {
		return copies(screenOf(w), to, capacity, length)
	})
	return text, err
}

// Contents returns the text of the rows that are shown, with a newline after each that doesn't go on in the next, and
// without newlines at its end.
func (s *Screen) Contents() (string, error) {
	text, err := s.read(func(w *C.jeihpal_screen, to *C.uint8_t, capacity C.size_t, length *C.size_t) C.int32_t {
		return C.jeihpal_screen_contents(w, to, capacity, length)
	})
	return string(text), err
}

// ContentsFormatted returns the escape sequences that take a terminal of this size to the screen's picture, whatever it
// showed before.
func (s *Screen) ContentsFormatted() ([]byte, error) {
	return s.read(func(w *C.jeihpal_screen, to *C.uint8_t, capacity C.size_t, length *C.size_t) C.int32_t {
		return C.jeihpal_screen_contents_formatted(w, to, capacity, length)
	})
}

// StateFormatted returns those that also set its modes and its cursor's style, for a terminal in which these are as in
// a fresh one.
func (s *Screen) StateFormatted() ([]byte, error) {
	return s.read(func(w *C.jeihpal_screen, to *C.uint8_t, capacity C.size_t, length *C.size_t) C.int32_t {
		return C.jeihpal_screen_state(w, to, capacity, length)
	})
}

// Mark marks the screen as it is now: it keeps a copy of it, in place of an earlier mark.
func (s *Screen) Mark() error {
	return s.act(func(w *word) C.int32_t { return C.jeihpal_screen_mark(screenOf(w)) })
}

// Difference returns the escape sequences that take a terminal from what the mark shows to what the screen shows.
// Without a mark they are those of StateFormatted.
func (s *Screen) Difference() ([]byte, error) {
	return s.read(func(w *C.jeihpal_screen, to *C.uint8_t, capacity C.size_t, length *C.size_t) C.int32_t {
		return C.jeihpal_screen_difference(w, to, capacity, length)
	})
}

// RequestKind is what a program asks of its terminal beyond drawing.
type RequestKind uint8

const (
	Bell          RequestKind = 1 + iota // BEL
	VisualBell                           // ESC g
	ResizeRequest                        // this many rows and columns, which may be 0 (XTWINOPS 8)
	IconName                             // the name of the window's icon (OSC 0 and 1)
	Title                                // the window's title (OSC 0 and 2)
	CopyRequest                          // letters of clipboards, then data in base64 for them (OSC 52)
	PasteRequest                         // letters of clipboards, whose data is asked for (OSC 52 with ?)
)

// Request is one of a program's requests. Its text is as the program wrote it, and needn't be UTF-8.
type Request struct {
	Kind       RequestKind
	Text       []byte
	Letters    int // how many bytes of the text, at the front, are letters of clipboards
	Rows, Cols int // of a ResizeRequest
}

// NextRequest takes the oldest request out of the screen's queue; it returns nil if none waits. A request is dropped if
// 256 wait already, if its text is longer than 1,021 bytes, or if there was no memory for it.
func (s *Screen) NextRequest() (*Request, error) {
	var request C.jeihpal_request
	room := make([]byte, C.JEIHPAL_MOST_REQUEST_BYTES)
	err := s.act(func(w *word) C.int32_t {
		answer := C.jeihpal_screen_request(screenOf(w), front(room), C.size_t(len(room)), &request)
		if answer >= 0 {
			s.dropped = int(request.dropped)
		}
		return answer
	})
	if err != nil || request.kind == C.JEIHPAL_NO_REQUEST {
		return nil, err
	}
	text := room[:request.length]
	return &Request{RequestKind(request.kind), text, int(request.letters), int(request.rows), int(request.cols)}, nil
}

// DroppedRequests returns how many requests had been dropped at the last call of NextRequest.
func (s *Screen) DroppedRequests() int {
	s.lock.Lock()
	defer s.lock.Unlock()
	return s.dropped
}
