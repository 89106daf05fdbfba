package jeihpal

import (
	"bytes"
	"errors"
	"fmt"
	"runtime"
	"strings"
	"sync"
	"testing"
	"time"
)

func ExampleScreen() {
	screen, err := NewScreen(24, 80, 0)
	if err != nil {
		panic(err)
	}
	defer screen.Close()
	fmt.Fprint(screen, "100%\r\x1b[Kdone")
	contents, _ := screen.Contents()
	fmt.Println(contents)
	// Output: done
}

func ExampleHub() {
	hub, _ := NewHub(2, 9)
	view, _ := NewView(2, 9)
	client, _ := hub.Attach()
	fmt.Fprint(hub, "hello")
	answer, _ := hub.Frame(client)
	hub.Pump(client, view) // or a connection: whatever arrives of it, the far terminal shows whole screens
	text, _ := view.RowText(0)
	fmt.Println(answer == Full, text)
	// Output: true hello
}

func must(t *testing.T, err error) {
	t.Helper()
	if err != nil {
		t.Fatal(err)
	}
}

func TestLateTerminalGoesOn(t *testing.T) {
	hub, err := NewHub(1, 20)
	must(t, err)
	client, err := hub.Attach()
	must(t, err)
	redraw, err := hub.Redraw(client)
	if err != nil || redraw == nil || len(redraw) != 0 {
		t.Fatal(redraw, err)
	}
	fmt.Fprint(hub, "one")
	if answer, err := hub.Frame(client); err != nil || !answer.IsFrame() {
		t.Fatal(answer, err)
	}
	fmt.Fprint(hub, " two")
	view, err := NewView(1, 20)
	must(t, err)
	redraw, err = hub.Redraw(client)
	must(t, err)
	view.Write(redraw)
	fork, err := hub.Fork(client)
	must(t, err)
	if answer, err := hub.Frame(fork); err != nil || answer != Difference {
		t.Fatal(answer, err)
	}
	must(t, hub.Pump(fork, view))
	if text, err := view.RowText(0); err != nil || text != "one two" {
		t.Fatal(text, err)
	}
	if _, err := hub.Fork(77); !errors.Is(err, ErrUnknownClient) {
		t.Fatal(err)
	}
}

func TestWholeFrameTurnsModesOff(t *testing.T) {
	hub, err := NewHub(1, 20)
	must(t, err)
	client, err := hub.Attach()
	must(t, err)
	whole, err := hub.WholeFrame(client)
	if err != nil || whole == nil || len(whole) != 0 {
		t.Fatal(whole, err)
	}
	fmt.Fprint(hub, "one")
	if answer, err := hub.Frame(client); err != nil || answer != Full {
		t.Fatal(answer, err)
	}
	view, err := NewView(1, 20)
	must(t, err)
	fmt.Fprint(view, "\x1b[?1002h\x1b[?1006h\x1b[4 qother")
	whole, err = hub.WholeFrame(client)
	must(t, err)
	view.Write(whole)
	if text, err := view.RowText(0); err != nil || text != "one" {
		t.Fatal(text, err)
	}
	if look, err := view.Look(); err != nil || look.Mouse != 0 || look.Style != 0 {
		t.Fatal(look, err)
	}
	if _, err := hub.WholeFrame(77); !errors.Is(err, ErrUnknownClient) {
		t.Fatal(err)
	}
}

func TestSizesHaveALimit(t *testing.T) {
	if _, err := NewHubWithin(65535, 65535, 20); !errors.Is(err, ErrTooLarge) {
		t.Fatal(err)
	}
	if _, err := NewViewWithin(3, 7, 20); !errors.Is(err, ErrTooLarge) {
		t.Fatal(err)
	}
	hub, err := NewHubWithin(4, 5, 20)
	must(t, err)
	if err := hub.Resize(3, 7); !errors.Is(err, ErrTooLarge) {
		t.Fatal(err)
	}
	must(t, hub.Resize(2, 10))
	screen, err := NewScreenWithin(4, 5, 9, 20)
	must(t, err)
	clone, err := screen.Clone()
	must(t, err)
	for _, it := range []*Screen{screen, clone} {
		if err := it.Resize(3, 7); !errors.Is(err, ErrTooLarge) {
			t.Fatal(err)
		}
		must(t, it.Resize(20, 1))
	}
}

func TestCells(t *testing.T) {
	screen, err := NewScreen(2, 4, 9)
	must(t, err)
	fmt.Fprint(screen, "\x1b[1;31m米\x1b[m\x1b[48;2;1;2;3me\u0301x4567\x1b[?25l\x07\x1b]2;title\x07")
	cells, wrapped, err := screen.RowCells(0)
	must(t, err)
	want := []Cell{
		{"米", 2, Bold, Color{Kind: IndexedColor, Index: 1}, Color{}},
		{"", 0, 0, Color{}, Color{}},
		{"e\u0301", 1, 0, Color{}, Color{RGBColor, 0, 1, 2, 3}},
		{"x", 1, 0, Color{}, Color{RGBColor, 0, 1, 2, 3}},
	}
	if !wrapped || len(cells) != 4 || cells[0] != want[0] || cells[2] != want[2] || cells[3] != want[3] || cells[1].Width != 0 {
		t.Fatal(cells, wrapped)
	}
	if cell, err := screen.Cell(0, 0); err != nil || cell != want[0] {
		t.Fatal(cell, err)
	}
	if _, err := screen.Cell(2, 0); !errors.Is(err, ErrNoCell) {
		t.Fatal(err)
	}
	look, err := screen.Look()
	must(t, err)
	if look.Rows != 2 || look.Cols != 4 || look.Row != 1 || look.Col != 4 || !look.Hidden || look.Failed {
		t.Fatalf("%+v", look)
	}
	for _, kind := range []RequestKind{Bell, Title} {
		request, err := screen.NextRequest()
		if err != nil || request.Kind != kind || (kind == Title && string(request.Text) != "title") {
			t.Fatal(request, err)
		}
	}
	if request, err := screen.NextRequest(); request != nil || err != nil {
		t.Fatal(request, err)
	}
}

func TestRefusals(t *testing.T) {
	if _, err := NewView(0, 9); !errors.Is(err, ErrBadSize) {
		t.Fatal(err)
	}
	view, err := NewView(1, 9)
	must(t, err)
	must(t, view.Close())
	must(t, view.Close())
	if _, err := view.Write([]byte("x")); !errors.Is(err, ErrClosed) {
		t.Fatal(err)
	}
}

func TestDifferencesAndClones(t *testing.T) {
	screen, err := NewScreen(1, 9, 0)
	must(t, err)
	screen.Write(nil)
	fmt.Fprint(screen, "one")
	must(t, screen.Mark())
	clone, err := screen.Clone()
	must(t, err)
	fmt.Fprint(screen, "\rt")
	if text, err := clone.Contents(); err != nil || text != "one" {
		t.Fatal(text, err)
	}
	difference, err := screen.Difference()
	must(t, err)
	clone.Write(difference)
	if text, err := clone.Contents(); err != nil || text != "tne" {
		t.Fatalf("%q %q %v", difference, text, err)
	}
	state, err := screen.StateFormatted()
	if err != nil || !bytes.Contains(state, []byte("tne")) {
		t.Fatalf("%q %v", state, err)
	}
}

func TestClonesOfWhatIsShown(t *testing.T) {
	screen, err := NewScreen(1, 9, 3)
	must(t, err)
	fmt.Fprint(screen, "one\r\ntwo")
	must(t, screen.Scroll(1))
	clone, err := screen.CloneVisible()
	must(t, err)
	state, err := clone.StateFormatted()
	must(t, err)
	fresh, err := NewScreen(1, 9, 0)
	must(t, err)
	fresh.Write(state)
	if text, err := fresh.Contents(); err != nil || text != "one" {
		t.Fatalf("%q %q %v", state, text, err)
	}
}

func TestRecording(t *testing.T) {
	recording, err := OpenRecording([]byte("{\"version\": 2, \"width\": 9, \"height\": 2}\n[0.5, \"o\", \"hi\"]\n[1, \"r\", \"7x3\"]\nx"))
	must(t, err)
	look, err := recording.Look()
	must(t, err)
	if look.Kind != Asciicast || look.Rows != 2 || look.Cols != 9 || look.Events != 2 || look.Fault != (Fault{BadLine, 4}) {
		t.Fatalf("%+v", look)
	}
	event, err := recording.Event(0)
	must(t, err)
	if event.Time.Milliseconds() != 500 || event.Kind != Output || string(event.Text) != "hi" {
		t.Fatalf("%+v", event)
	}
	if event, err = recording.Event(1); err != nil || event.Kind != NewSize || event.Rows != 3 || event.Cols != 7 {
		t.Fatalf("%+v %v", event, err)
	}
	screen, err := recording.ScreenAt(500*time.Millisecond, 2, 9, 0)
	must(t, err)
	defer screen.Close()
	if row, err := screen.RowText(0); err != nil || row != "hi" {
		t.Error(row, err)
	}
	if _, err := recording.ScreenAt(0, 0, 9, 0); !errors.Is(err, ErrBadSize) {
		t.Error(err)
	}
	if _, err := recording.Event(2); !errors.Is(err, ErrNoEvent) {
		t.Fatal(err)
	}
	if _, err := OpenRecording([]byte("\x1f\x8b\x08")); !errors.Is(err, ErrCompressed) {
		t.Fatal(err)
	}
}

// Goroutines share a screen, and others are collected without Close.
func TestGoroutines(t *testing.T) {
	screen, err := NewScreen(3, 9, 0)
	must(t, err)
	var group sync.WaitGroup
	for i := 0; i < 8; i++ {
		group.Add(1)
		go func() {
			defer group.Done()
			for j := 0; j < 200; j++ {
				fmt.Fprint(screen, "\rx\x1b[K")
				if text, err := screen.RowText(0); err != nil || text != "x" {
					t.Error(text, err)
				}
				if _, err := NewView(2, 2); err != nil {
					t.Error(err)
				}
			}
		}()
	}
	group.Wait()
	runtime.GC()
}

func TestFilter(t *testing.T) {
	filter, err := NewFilter()
	if err != nil {
		t.Fatal(err)
	}
	defer filter.Close()
	for _, piece := range []struct{ bytes, given string }{
		{"\x1b(0lq", "\x1b(0┌─"}, {"", ""}, {strings.Repeat("x", 5000), strings.Repeat("│", 5000)}, {"\x1b(Bq", "\x1b(Bq"},
	} {
		given, err := filter.Pass([]byte(piece.bytes))
		if err != nil || string(given) != piece.given {
			t.Errorf("%q gives %q, %v", piece.bytes, given, err)
		}
	}
	if given, err := filter.Pass(nil); err != nil || len(given) != 0 {
		t.Errorf("nothing gives %q, %v", given, err)
	}
}
