package jeihpal

/*
#include <jeihpal.h>
*/
import "C"

import "io"

// Client is a hub's name for one of its clients. That of one that has ended may be given again.
type Client uint

// Answer is the result of a request for a frame.
type Answer int

const (
	Unchanged  Answer = iota // the screen shows what it did at the client's last frame
	Behind                   // bytes of the last frame still wait for the client
	Held                     // the program is in a synchronized update of its own (private mode 2026)
	TooLong                  // the frame would be longer than 2,097,150 bytes; never for up to 2,000 cells
	Full                     // the frame leads from any picture
	Difference               // it leads from the picture of the client's last frame
	Unsure                   // as Full, of a screen that shows U+FE0F, on whose width terminals disagree
)

// IsFrame says whether there is a new frame, whose bytes now wait for the client.
func (a Answer) IsFrame() bool { return a >= Full }

// Hub is one program's screen, and clients that are sent frames of it.
type Hub struct {
	shown
	mostCells uint
}

var hubReads = reads{
	look: func(w *word, look *C.jeihpal_look) C.int32_t { return C.jeihpal_hub_look(w, look) },
	cell: func(w *word, row, col C.uint16_t, cell *C.jeihpal_cell) C.int32_t {
		return C.jeihpal_hub_cell(w, row, col, cell)
	},
	rowCells: func(w *word, row C.uint16_t, to *C.jeihpal_cell, room C.size_t, count *C.size_t, wrapped *C.uint8_t) C.int32_t {
		return C.jeihpal_hub_row_cells(w, row, to, room, count, wrapped)
	},
	rowText: func(w *word, row C.uint16_t, to *C.uint8_t, capacity C.size_t, length *C.size_t) C.int32_t {
		return C.jeihpal_hub_row_text(w, row, to, capacity, length)
	},
}

// NewHub makes a hub with a blank screen of this size, and without clients.
func NewHub(rows, cols uint16) (*Hub, error) { return NewHubWithin(rows, cols, AnySize) }

// NewHubWithin makes a hub for sizes that strangers choose: one of more than mostCells cells is refused with
// ErrTooLarge, here and by Resize.
func NewHubWithin(rows, cols uint16, mostCells uint) (*Hub, error) {
	hub := &Hub{shown{reads: hubReads}, mostCells}
	err := hub.made(func(w *word) { C.jeihpal_hub_close(w) }, func(w *word) C.int32_t {
		return C.jeihpal_hub_new_within(w, C.uint16_t(rows), C.uint16_t(cols), C.size_t(mostCells))
	})
	if err != nil {
		return nil, err
	}
	return hub, nil
}

// Write feeds the program's next bytes to the screen. They may be cut anywhere. After ErrMemory the hub has failed: it
// makes no further frames, but bytes that wait for clients can still be sent.
func (h *Hub) Write(bytes []byte) (int, error) {
	err := h.act(func(w *word) C.int32_t { return C.jeihpal_hub_feed(w, front(bytes), C.size_t(len(bytes))) })
	if err != nil {
		return 0, err
	}
	return len(bytes), nil
}

// Resize gives the screen another size, or the same, and ends the program's synchronized update. Every client ends.
func (h *Hub) Resize(rows, cols uint16) error {
	return h.act(func(w *word) C.int32_t {
		return C.jeihpal_hub_resize_within(w, C.uint16_t(rows), C.uint16_t(cols), C.size_t(h.mostCells))
	})
}

// Attach attaches a new client, which has had no frame, and returns its key.
func (h *Hub) Attach() (Client, error) {
	var client C.size_t
	err := h.act(func(w *word) C.int32_t { return C.jeihpal_hub_attach(w, &client) })
	return Client(client), err
}

// Fork adds a client that starts from what this one has once it has read all its frames, and returns its key. No bytes
// wait for it, and its next frame starts from there: a terminal that has read this client's frames, or its Redraw, goes
// on with the new client's frames.
func (h *Hub) Fork(client Client) (Client, error) {
	var fork C.size_t
	err := h.act(func(w *word) C.int32_t { return C.jeihpal_hub_fork(w, C.size_t(client), &fork) })
	return Client(fork), err
}

// Detach detaches a client. Bytes that wait for it are dropped.
func (h *Hub) Detach(client Client) error {
	return h.act(func(w *word) C.int32_t { return C.jeihpal_hub_detach(w, C.size_t(client)) })
}

// Frame asks for a frame for a client, best once no bytes wait for it and the program pauses.
func (h *Hub) Frame(client Client) (Answer, error) {
	answer, err := h.call(func(w *word) C.int32_t { return C.jeihpal_hub_frame(w, C.size_t(client)) })
	return Answer(answer), err
}

// Owed returns the bytes that wait for the client: those of its last frame that weren't sent yet.
func (h *Hub) Owed(client Client) ([]byte, error) {
	text, _, err := h.text(func(w *word, to *C.uint8_t, capacity C.size_t, length *C.size_t) C.int32_t {
		return C.jeihpal_hub_owed(w, C.size_t(client), to, capacity, length)
	})
	return text, err
}

// Redraw returns the bytes that draw, on a fresh terminal of the screen's size, what the client shows once it has read
// all its frames, also those that still wait for it. Before its first frame there are none. The result is nil, without
// an error, if they are more than a terminal buffers.
func (h *Hub) Redraw(client Client) ([]byte, error) {
	text, answer, err := h.text(func(w *word, to *C.uint8_t, capacity C.size_t, length *C.size_t) C.int32_t {
		return C.jeihpal_hub_redraw(w, C.size_t(client), to, capacity, length)
	})
	if answer != C.JEIHPAL_OK {
		return nil, err
	}
	return text, nil
}

// WholeFrame returns a frame for a stream that several terminals read. It draws what Redraw does on any terminal of the
// screen's size, whatever frames it has read: it is the redraw, with escape sequences after the start mark that turn
// off the mouse's modes and encodings, and reset the cursor's style. Before the client's first frame it is empty. It is
// nil, without an error, if it is longer than a terminal buffers.
func (h *Hub) WholeFrame(client Client) ([]byte, error) {
	text, answer, err := h.text(func(w *word, to *C.uint8_t, capacity C.size_t, length *C.size_t) C.int32_t {
		return C.jeihpal_hub_whole_frame(w, C.size_t(client), to, capacity, length)
	})
	if answer != C.JEIHPAL_OK {
		return nil, err
	}
	return text, nil
}

// Sent reports that the first count of the bytes that wait for the client were sent. They no longer wait.
func (h *Hub) Sent(client Client, count int) error {
	return h.act(func(w *word) C.int32_t { return C.jeihpal_hub_sent(w, C.size_t(client), C.size_t(count)) })
}

// Pump writes the bytes that wait for the client. Those that the writer took no longer wait, whatever it returns.
func (h *Hub) Pump(client Client, to io.Writer) error {
	owed, err := h.Owed(client)
	if err != nil || len(owed) == 0 {
		return err
	}
	count, fault := to.Write(owed)
	if count > 0 {
		if err := h.Sent(client, min(count, len(owed))); err != nil {
			return err
		}
	}
	if fault == nil && count < len(owed) {
		return io.ErrShortWrite
	}
	return fault
}

func min(a, b int) int {
	if a < b {
		return a
	}
	return b
}

// Contents returns the text of all rows.
func (h *Hub) Contents() (string, error) {
	text, _, err := h.text(func(w *word, to *C.uint8_t, capacity C.size_t, length *C.size_t) C.int32_t {
		return C.jeihpal_hub_contents(w, to, capacity, length)
	})
	return string(text), err
}
