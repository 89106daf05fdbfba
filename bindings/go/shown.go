package jeihpal

/*
#include <jeihpal.h>
*/
import "C"

import "unsafe"

// Attributes say how a cell is drawn. If both Bold and Dim are set, the text is bold.
type Attributes uint8

const (
	Bold Attributes = 1 << iota
	Dim
	Italic
	Underlined
	Inverse
)

// ColorKind says which fields of a Color count.
type ColorKind uint8

const (
	DefaultColor ColorKind = iota // the terminal's own
	IndexedColor                  // one of the 256 numbered ones: Index
	RGBColor                      // Red, Green and Blue
)

// Color is the colour of a cell's text, or of its background.
type Color struct {
	Kind             ColorKind
	Index            uint8
	Red, Green, Blue uint8
}

// Cell is what a screen shows at one place.
type Cell struct {
	Text       string // a character and the zero-width ones that joined it; empty if nothing is shown
	Width      int    // 1, 2 if the cell takes the next column too, 0 for the second half of such a cell
	Attributes Attributes
	Foreground Color
	Background Color
}

// Mouse says which mouse events the program asks for.
type Mouse uint8

const (
	MouseNone         Mouse = iota
	MousePress              // a button going down (private mode 9)
	MousePressRelease       // a button going down or up (private mode 1000)
	MouseButtonMotion       // and motion while a button is down (private mode 1002)
	MouseAnyMotion          // and any motion (private mode 1003)
)

// Encoding says how mouse events are to be sent.
type Encoding uint8

const (
	EncodingDefault Encoding = iota // a byte for each number, as X10 has it
	EncodingUTF8                    // private mode 1005
	EncodingSGR                     // private mode 1006
)

// Look is the size, the cursor and the modes.
type Look struct {
	Rows, Cols int
	Row, Col   int  // the cursor's; Col is Cols if the next character goes to the next row
	Hidden     bool // the cursor is hidden
	Style      int  // how the cursor looks: the number of DECSCUSR, 0 to 6
	Mouse      Mouse
	Encoding   Encoding
	Keypad     bool // the keypad sends application sequences
	CursorKeys bool // the cursor keys do
	Paste      bool // pasted text is marked as such (private mode 2004)
	Alternate  bool // the alternate screen is shown; false in a view
	Updating   bool // the program is in a synchronized update of its own; false in a view
	Failed     bool // the screen has failed; false in a view
	Kept       int  // how many rows have scrolled off and are kept; 0 in a hub or a view
	Scrolled   int  // how many of them are shown, above the others; 0 in a hub or a view
}

func colorOf(color C.jeihpal_color) Color {
	switch ColorKind(color.kind) {
	case IndexedColor:
		return Color{Kind: IndexedColor, Index: uint8(color.red_or_index)}
	case RGBColor:
		return Color{RGBColor, 0, uint8(color.red_or_index), uint8(color.green), uint8(color.blue)}
	}
	return Color{}
}

func cellOf(cell *C.jeihpal_cell) Cell {
	return Cell{
		Text:       C.GoStringN((*C.char)(unsafe.Pointer(&cell.text[0])), C.int(cell.length)),
		Width:      int(cell.width),
		Attributes: Attributes(cell.attributes),
		Foreground: colorOf(cell.foreground),
		Background: colorOf(cell.background),
	}
}

func lookOf(look *C.jeihpal_look) Look {
	return Look{
		Rows: int(look.rows), Cols: int(look.cols), Row: int(look.row), Col: int(look.col),
		Hidden: look.hidden != 0, Style: int(look.style), Mouse: Mouse(look.mouse), Encoding: Encoding(look.encoding),
		Keypad: look.keypad != 0, CursorKeys: look.cursor_keys != 0, Paste: look.paste != 0,
		Alternate: look.alternate != 0, Updating: look.updating != 0, Failed: look.failed != 0,
		Kept: int(look.kept), Scrolled: int(look.scrolled),
	}
}

// shown is what hubs, views and screens have in common: something that is shown.
type shown struct {
	object
	reads reads
}

// reads holds the library's calls that read it.
type reads struct {
	look     func(*word, *C.jeihpal_look) C.int32_t
	cell     func(*word, C.uint16_t, C.uint16_t, *C.jeihpal_cell) C.int32_t
	rowCells func(*word, C.uint16_t, *C.jeihpal_cell, C.size_t, *C.size_t, *C.uint8_t) C.int32_t
	rowText  func(*word, C.uint16_t, *C.uint8_t, C.size_t, *C.size_t) C.int32_t
}

// Look returns the size, the cursor and the modes.
func (s *shown) Look() (Look, error) {
	var look C.jeihpal_look
	err := s.act(func(w *word) C.int32_t { return s.reads.look(w, &look) })
	return lookOf(&look), err
}

// Cell returns the cell at a place, counted from 0. ErrNoCell: there is none.
func (s *shown) Cell(row, col uint16) (Cell, error) {
	var cell C.jeihpal_cell
	err := s.act(func(w *word) C.int32_t { return s.reads.cell(w, C.uint16_t(row), C.uint16_t(col), &cell) })
	return cellOf(&cell), err
}

// RowCells returns the cells of a row, and whether its text continues in the next row. ErrNoCell: there is no such row.
func (s *shown) RowCells(row uint16) ([]Cell, bool, error) {
	s.lock.Lock()
	defer s.lock.Unlock()
	var count C.size_t
	var wrapped C.uint8_t
	room := make([]C.jeihpal_cell, 256)
	for {
		answer := s.reads.rowCells(s.word, C.uint16_t(row), &room[0], C.size_t(len(room)), &count, &wrapped)
		if err := refusal(answer); err != nil {
			return nil, false, err
		}
		if int(count) <= len(room) {
			break
		}
		room = make([]C.jeihpal_cell, count)
	}
	cells := make([]Cell, count)
	for i := range cells {
		cells[i] = cellOf(&room[i])
	}
	return cells, wrapped != 0, nil
}

// RowText returns the text of a row, without the empty columns at its end; nothing past the last row.
func (s *shown) RowText(row uint16) (string, error) {
	text, _, err := s.text(func(w *word, to *C.uint8_t, capacity C.size_t, length *C.size_t) C.int32_t {
		return s.reads.rowText(w, C.uint16_t(row), to, capacity, length)
	})
	return string(text), err
}
