package jeihpal

/*
#include <jeihpal.h>
*/
import "C"

import "time"

// RecordingKind is a kind of recordings.
type RecordingKind uint8

const (
	Asciicast  RecordingKind = 1 + iota // an asciicast, version 1, 2 or 3
	Typescript                          // a typescript of script(1), with the file of its times
	Ttyrec                              // a ttyrec
	Raw                                 // the bytes alone: one event at the time 0
)

// Fault is where a recording stops making sense.
type Fault struct {
	Kind  FaultKind
	Place uint64 // the line, from 1, or the byte, from 0
}

// FaultKind is what the place of a Fault counts.
type FaultKind uint8

const (
	NoFault FaultKind = iota
	BadLine           // a line of an asciicast isn't an event
	BadByte           // no whole frame of a ttyrec begins at a byte
	BadStep           // a line of a file of times isn't a step, or takes more bytes than are left
)

// EventKind is what an event does.
type EventKind uint8

const (
	Output  EventKind = 1 + iota // the program writes the text
	NewSize                      // the terminal gets this size
	Marker                       // the text names the moment
)

// Event is something that happens in a recording.
type Event struct {
	Time       time.Duration // since the beginning; never less than that of the event before
	Kind       EventKind
	Text       []byte
	Rows, Cols int // of NewSize
}

// Recorded is what a recording says of itself. Only what comes before the first fault is read.
type Recorded struct {
	Kind       RecordingKind
	Rows, Cols int // the size at first; 0 if the recording doesn't say it
	Events     int
	Length     time.Duration // up to the last event, even if that isn't among these
	Fault      Fault
}

// Recording is what a program wrote to its terminal, and when.
type Recording struct{ object }

// OpenRecording reads a recording up to its first fault, in the kind that its first bytes say.
func OpenRecording(bytes []byte) (*Recording, error) {
	return opened(func(w *word) C.int32_t {
		return C.jeihpal_recording_open(recordingOf(w), front(bytes), C.size_t(len(bytes)))
	})
}

// OpenTypescript reads what script(1) wrote: the output, and the file of its times.
func OpenTypescript(output, timing []byte) (*Recording, error) {
	return opened(func(w *word) C.int32_t {
		return C.jeihpal_recording_open_script(recordingOf(w), front(output), C.size_t(len(output)), front(timing),
			C.size_t(len(timing)))
	})
}

func opened(open func(*word) C.int32_t) (*Recording, error) {
	recording := &Recording{}
	if err := recording.made(func(w *word) { C.jeihpal_recording_close(recordingOf(w)) }, open); err != nil {
		return nil, err
	}
	return recording, nil
}

func microseconds(count C.uint64_t) time.Duration { return time.Duration(count) * time.Microsecond }

// Look returns what the recording says of itself.
func (r *Recording) Look() (Recorded, error) {
	var look C.jeihpal_recorded
	err := r.act(func(w *word) C.int32_t { return C.jeihpal_recording_look(recordingOf(w), &look) })
	return Recorded{
		Kind: RecordingKind(look.kind), Rows: int(look.rows), Cols: int(look.cols), Events: int(look.events),
		Length: microseconds(look.length), Fault: Fault{FaultKind(look.fault), uint64(look.place)},
	}, err
}

// Event returns one of the events, counted from 0. ErrNoEvent: there are fewer.
func (r *Recording) Event(index int) (Event, error) {
	var event C.jeihpal_event
	err := r.act(func(w *word) C.int32_t {
		return C.jeihpal_recording_event(recordingOf(w), C.size_t(index), &event)
	})
	if err != nil {
		return Event{}, err
	}
	text, _, err := r.text(func(w *word, to *C.uint8_t, capacity C.size_t, length *C.size_t) C.int32_t {
		return C.jeihpal_recording_event_text(recordingOf(w), C.size_t(index), to, capacity, length)
	})
	return Event{microseconds(event.time), EventKind(event.kind), text, int(event.rows), int(event.cols)}, err
}

// ScreenAt makes a screen of this size that keeps at most scrollback rows, and does to it what the recording does up to
// a time. It has no requests.
func (r *Recording) ScreenAt(time time.Duration, rows, cols uint16, scrollback uint) (*Screen, error) {
	screen := &Screen{shown: shown{reads: screenReads}, mostCells: AnySize}
	err := screen.made(closeScreen, func(w *word) C.int32_t {
		r.lock.Lock()
		defer r.lock.Unlock()
		return C.jeihpal_recording_screen(recordingOf(r.word), screenOf(w), C.uint16_t(rows), C.uint16_t(cols),
			C.size_t(scrollback), C.uint64_t(time.Microseconds()))
	})
	if err != nil {
		return nil, err
	}
	return screen, nil
}
