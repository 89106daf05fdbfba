//! Callbacks and captures of `jeihpal::vt100`. The expected values are those of `vt100` 0.18.1.
use jeihpal::vt100::capture::{
    basic_formatted_rows, BasicFormattedCaptureRange, BasicFormattedCaptureState, RowContents,
};
use jeihpal::vt100::{Callbacks, Parser, Screen};
use std::num::NonZeroU16;

fn size(n: u16) -> NonZeroU16 {
    NonZeroU16::new(n).unwrap()
}

#[derive(Default)]
struct Log {
    calls: Vec<String>,
    capture: String,
    state: BasicFormattedCaptureState,
}

impl Log {
    fn at(&mut self, screen: &Screen, call: String) {
        let (row, col) = screen.cursor_position();
        self.calls.push(format!("{call} at {row},{col}"));
    }
}

impl Callbacks for Log {
    fn set_window_title(&mut self, screen: &mut Screen, title: &[u8]) {
        self.at(screen, format!("title of {}", title.len()));
    }

    fn copy_to_clipboard(&mut self, screen: &mut Screen, letters: &[u8], data: &[u8]) {
        self.at(screen, format!("copy {letters:?} of {}", data.len()));
    }

    fn resize(&mut self, screen: &mut Screen, (rows, cols): (u16, u16)) {
        screen.set_size(size(rows), size(cols));
        self.at(screen, "resize".to_string());
    }

    fn unhandled_char(&mut self, screen: &mut Screen, c: char) {
        self.at(screen, format!("{c:?}"));
    }

    fn unhandled_control(&mut self, screen: &mut Screen, b: u8) {
        self.at(screen, format!("control {b}"));
    }

    fn unhandled_escape(&mut self, screen: &mut Screen, i1: Option<u8>, i2: Option<u8>, b: u8) {
        self.at(screen, format!("escape {i1:?} {i2:?} {}", char::from(b)));
    }

    fn unhandled_csi(
        &mut self,
        screen: &mut Screen,
        i1: Option<u8>,
        i2: Option<u8>,
        params: &[&[u16]],
        c: char,
    ) {
        self.at(screen, format!("csi {i1:?} {i2:?} {params:?} {c}"));
    }

    fn unhandled_osc(&mut self, screen: &mut Screen, params: &[&[u8]]) {
        self.at(screen, format!("osc {params:?}"));
    }

    fn on_scroll(&mut self, contents: RowContents<'_>, alternate_screen: bool) {
        let mut alone = String::new();
        let mut state = BasicFormattedCaptureState::new();
        contents
            .write_formatted_basic(&mut alone, &mut state)
            .unwrap();
        contents
            .write_formatted_basic(&mut self.capture, &mut self.state)
            .unwrap();
        let of = if alternate_screen { "alternate " } else { "" };
        self.calls.push(format!("{of}row {alone:?}"));
    }
}

fn parser(rows: u16, cols: u16, kept: usize) -> Parser<Log> {
    Parser::new_with_callbacks(size(rows), size(cols), kept, Log::default())
}

#[test]
fn what_is_not_handled() {
    let mut parser = parser(24, 80, 0);
    parser.process(b"a\x00b\x1b#8c\x1b[?5id\x1b[38;7;1m\x1b[>4:2;7\"q\x1b]9;a;b\x07");
    parser.process(b"\xef\xbf\xbde\xc2\x85f\xff\xc3\x1bH");
    let want = [
        "control 0 at 0,1",
        "escape Some(35) None 8 at 0,2",
        "csi Some(63) None [[5]] i at 0,3",
        "csi None None [[38], [7], [1]] m at 0,4",
        "csi Some(62) Some(34) [[4, 2], [7]] q at 0,4",
        "osc [[57], [97], [98]] at 0,4",
        "'\u{fffd}' at 0,4",
        "control 133 at 0,5",
        "'\u{fffd}' at 0,6",
        "'\u{fffd}' at 0,6",
        "escape None None H at 0,6",
    ];
    assert_eq!(parser.callbacks().calls, want);
    assert_eq!(parser.screen().contents(), "abcdef");
}

/// Many rows leave before a sequence that isn't handled.
#[test]
fn many_rows_that_leave() {
    let mut parser = parser(3, 2, 0);
    parser.process(b"h\x1b[700b\x1b[2S\x1b[60Sd\x1bZ\x9bx");
    let calls = &parser.callbacks().calls;
    let is_row = |call: &String| call.starts_with("row");
    assert_eq!(calls.iter().filter(|call| is_row(call)).count(), 354);
    assert_eq!(
        calls[353..355],
        ["escape None None Z at 2,2", "control 155 at 2,2"]
    );
    assert!(is_row(&calls[355]));
}

#[test]
fn rows_that_leave() {
    let mut parser = parser(2, 5, 1);
    parser.process(b"one\r\n\x1b[31mtwo\r\nthreefour\r\n");
    parser.set_size(size(1), size(5));
    let want = [
        "row \"one\"",
        "row \"\\u{1b}[31mtwo\"",
        "row \"\\u{1b}[31mthree\"",
    ];
    assert_eq!(parser.callbacks().calls, want);
    let log = parser.callbacks_mut();
    let (mut all, mut state) = (std::mem::take(&mut log.capture), log.state.clone());
    let screen = parser.screen();
    screen
        .write_contents_formatted_basic(&mut all, BasicFormattedCaptureRange::Full(&mut state))
        .unwrap();
    // The third row goes on in the fourth.
    assert_eq!(all, "one\n\x1b[31mtwo\nthreefour\n");
    let mut shown = String::new();
    screen
        .write_contents_formatted_basic(&mut shown, BasicFormattedCaptureRange::Visible)
        .unwrap();
    assert_eq!(shown, screen.contents_formatted_basic());
}

#[test]
fn rows_of_the_alternate_screen() {
    let mut parser = parser(2, 5, 9);
    parser.process(b"x\x1b[?1049h\x1b[Ha\r\nb\r\nc\x1b[?1049l");
    assert_eq!(parser.callbacks().calls, ["alternate row \"a\""]);
}

#[test]
fn all_rows_are_written() {
    let mut parser = Parser::new(size(3), size(4), 100);
    for n in 0..20 {
        parser.process(format!("{n}\r\n").as_bytes());
    }
    parser.screen_mut().set_scrollback(7);
    let mut text = String::new();
    let mut state = BasicFormattedCaptureState::new();
    let range = BasicFormattedCaptureRange::Full(&mut state);
    parser
        .screen()
        .write_contents_formatted_basic(&mut text, range)
        .unwrap();
    let want: Vec<String> = (0..20).map(|n| n.to_string()).collect();
    assert_eq!(text, format!("{}\n", want.join("\n")));
    assert_eq!(parser.screen().scrollback(), 7);
}

#[test]
fn rows_of_a_smaller_screen_are_not_told() {
    let mut parser = parser(3, 9, 0);
    parser.process(b"a\r\nb\r\nc\x1b[8;1;9td");
    assert_eq!(parser.callbacks().calls, ["resize at 0,1"]);
    parser.process(b"\n");
    assert_eq!(parser.callbacks().calls[1..], ["row \"cd\""]);
}

#[test]
fn many_rows_leave_at_once() {
    let mut parser = parser(2, 1, 0);
    parser.process(b"a\x1b[65535b");
    assert_eq!(parser.callbacks().calls.len(), 65_534);
}

#[test]
fn texts_are_whole() {
    let mut parser = parser(2, 20, 0);
    let text = "a".repeat(5000);
    parser.process(format!("x\x1b]2;{text}\x07y\x1b]52;c;{text}\x1b\\").as_bytes());
    let want = [
        "title of 5000 at 0,1",
        "copy [99] of 5000 at 0,2",
        "escape None None \\ at 0,2",
    ];
    assert_eq!(parser.callbacks().calls, want);
}

#[test]
fn rows_of_captures() {
    let rows: Vec<&str> = basic_formatted_rows("米米a\x1b[31m米e\u{301}b\n\nc", 4).collect();
    assert_eq!(rows, ["米米", "a\x1b[31m米e\u{301}", "b", "", "c"]);
    assert_eq!(basic_formatted_rows("", 4).collect::<Vec<_>>(), [""]);
}

/// Hands rows on to other callbacks, and counts them.
struct Counted<T> {
    rows: usize,
    others: T,
}

impl<T: Callbacks> Callbacks for Counted<T> {
    fn on_scroll(&mut self, contents: RowContents<'_>, alternate_screen: bool) {
        self.rows += 1;
        self.others.on_scroll(contents, alternate_screen);
    }
}

struct Quiet;

impl Callbacks for Quiet {}

#[test]
fn rows_are_told_though_others_do_not_read_them() {
    let callbacks = Counted {
        rows: 0,
        others: Quiet,
    };
    let mut parser = Parser::new_with_callbacks(size(2), size(5), 0, callbacks);
    (0..100).for_each(|_| parser.process(b"\n"));
    assert_eq!(parser.callbacks().rows, 99);
    let mut parser = Parser::new_with_callbacks(size(2), size(5), 0, Quiet);
    (0..100).for_each(|_| parser.process(b"a\r\n"));
    assert_eq!(parser.screen().contents(), "a");
}

/// At each bell the screen is exchanged.
#[derive(Default)]
struct Exchanging {
    other: Parser,
    escapes: Vec<u8>,
}

impl Callbacks for Exchanging {
    fn audible_bell(&mut self, screen: &mut Screen) {
        std::mem::swap(self.other.screen_mut(), screen);
    }

    fn unhandled_escape(&mut self, _: &mut Screen, _: Option<u8>, _: Option<u8>, b: u8) {
        self.escapes.push(b);
    }
}

#[test]
fn another_screen_tells_as_well() {
    let mut parser = Parser::new_with_callbacks(size(24), size(80), 0, Exchanging::default());
    parser.process(b"a\x1bp\x07b\x1bq\x07c\x1bt");
    assert_eq!(parser.callbacks().escapes, b"pqt");
    assert_eq!(parser.screen().contents(), "ac");
    assert_eq!(parser.screen().cell(0, 1).unwrap().contents(), "c");
    assert_eq!(parser.callbacks().other.screen().contents(), "b");
}
