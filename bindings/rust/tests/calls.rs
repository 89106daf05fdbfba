//! Hubs, views, screens and recordings, and the names of `vt100`.
use jeihpal::{
    Answer, Change, Client, Color, Error, Fault, Hub, Kind, MouseProtocolEncoding,
    MouseProtocolMode, Recording, Request, Screen, View,
};
use std::fs;
use std::io::{self, Write};
use std::num::NonZeroU16;
use std::thread;

fn size(n: u16) -> NonZeroU16 {
    NonZeroU16::new(n).unwrap()
}

fn pair(rows: u16, cols: u16) -> (Hub, View, Client) {
    let mut hub = Hub::new(size(rows), size(cols)).unwrap();
    let client = hub.attach().unwrap();
    (hub, View::new(size(rows), size(cols)).unwrap(), client)
}

#[test]
fn a_frame_arrives() {
    let (mut hub, mut view, client) = pair(1, 20);
    for (line, want) in [
        ("[####      ]  40%", Answer::Full),
        ("\r[########  ]  80%", Answer::Difference),
    ] {
        hub.write_all(line.as_bytes()).unwrap();
        assert_eq!(hub.frame(client), Ok(want));
        assert_eq!(hub.frame(client), Ok(Answer::Behind));
        let mut wire = Vec::new();
        hub.pump(client, &mut wire).unwrap();
        wire.chunks(5).for_each(|piece| view.advance(piece));
        assert_eq!(view.row_text(0).unwrap(), line.trim_start());
    }
    assert_eq!(hub.frame(client), Ok(Answer::Unchanged));
    assert_eq!(
        hub.contents().unwrap(),
        view.rows().next().unwrap().unwrap()
    );
    hub.detach(client).unwrap();
    assert_eq!(hub.frame(client), Err(Error::UnknownClient));
}

/// A terminal that joins late reads the redraw of a client, and goes on with the frames of a fork.
#[test]
fn a_late_terminal_goes_on() {
    let (mut hub, mut view, client) = pair(1, 20);
    assert_eq!(hub.redraw(client), Ok(Some(Vec::new())));
    hub.write_all(b"one").unwrap();
    assert_eq!(hub.frame(client), Ok(Answer::Full));
    hub.write_all(b" two").unwrap();
    view.advance(&hub.redraw(client).unwrap().unwrap());
    assert_eq!(view.row_text(0).unwrap(), "one");
    let fork = hub.fork(client).unwrap();
    assert_eq!(hub.owed(fork), Ok(Vec::new()));
    assert_eq!(hub.frame(fork), Ok(Answer::Difference));
    view.advance(&hub.owed(fork).unwrap());
    assert_eq!(view.row_text(0).unwrap(), "one two");
    hub.detach(fork).unwrap();
    assert_eq!(hub.redraw(fork), Err(Error::UnknownClient));
    assert_eq!(hub.fork(fork), Err(Error::UnknownClient));
}

/// A terminal that was left with modes on reads a whole frame, and goes on with the client's frames.
#[test]
fn a_whole_frame_turns_modes_off() {
    let (mut hub, mut view, client) = pair(1, 20);
    assert_eq!(hub.whole_frame(client), Ok(Some(Vec::new())));
    hub.write_all(b"one").unwrap();
    hub.frame(client).unwrap();
    hub.sent(client, hub.owed(client).unwrap().len()).unwrap();
    view.advance(b"\x1b[?1002h\x1b[?1006h\x1b[4 qother");
    view.advance(&hub.whole_frame(client).unwrap().unwrap());
    assert_eq!(view.row_text(0).unwrap(), "one");
    assert_eq!(view.look().mouse_protocol_mode, MouseProtocolMode::None);
    hub.write_all(b" two").unwrap();
    assert_eq!(hub.frame(client), Ok(Answer::Difference));
    view.advance(&hub.owed(client).unwrap());
    assert_eq!(view.row_text(0).unwrap(), "one two");
    hub.detach(client).unwrap();
    assert_eq!(hub.whole_frame(client), Err(Error::UnknownClient));
}

/// A writer that takes this many bytes in all, and then returns an error.
struct Narrow(usize);

impl io::Write for Narrow {
    fn write(&mut self, bytes: &[u8]) -> io::Result<usize> {
        let count = bytes.len().min(self.0).min(3);
        self.0 -= count;
        if count == 0 {
            return Err(io::ErrorKind::BrokenPipe.into());
        }
        Ok(count)
    }

    fn flush(&mut self) -> io::Result<()> {
        Ok(())
    }
}

#[test]
fn what_is_owed() {
    let (mut hub, _, client) = pair(1, 20);
    hub.feed(b"hello").unwrap();
    hub.frame(client).unwrap();
    let want = b"\x1b[?2026h\x1b[?25h\x1b[m\x1b[H\x1b[Jhello\x1b>\x1b[?1l\x1b[?2004l\x1b[?2026l";
    assert_eq!(hub.owed(client).unwrap(), want);
    assert_eq!(
        hub.pump(client, &mut Narrow(10)).unwrap_err().kind(),
        io::ErrorKind::BrokenPipe
    );
    assert_eq!(hub.owed(client).unwrap(), want[10..]);
    assert_eq!(hub.sent(client, want.len()), Err(Error::NotOwed));
    hub.sent(client, want.len() - 10).unwrap();
    assert!(hub.owed(client).unwrap().is_empty());
}

#[test]
fn updates_are_held() {
    let (mut hub, _, client) = pair(2, 9);
    hub.feed(b"\x1b[?2026hx").unwrap();
    assert_eq!(hub.frame(client), Ok(Answer::Held));
    assert!(hub.look().is_updating);
    hub.resize(size(2), size(9)).unwrap();
    let client = hub.attach().unwrap();
    assert!(hub.frame(client).unwrap().is_frame());
}

#[test]
fn sizes_have_a_limit() {
    let most = size(u16::MAX);
    assert_eq!(Hub::new_within(most, most, 20).err(), Some(Error::TooLarge));
    assert_eq!(
        View::new_within(size(3), size(7), 20).err(),
        Some(Error::TooLarge)
    );
    assert!(View::new_within(size(4), size(5), 20).is_ok());
    let mut hub = Hub::new_within(size(4), size(5), 20).unwrap();
    let client = hub.attach().unwrap();
    assert_eq!(hub.resize(size(3), size(7)), Err(Error::TooLarge));
    assert!(hub.frame(client).unwrap().is_frame());
    hub.resize(size(2), size(10)).unwrap();
    assert_eq!(hub.frame(client), Err(Error::UnknownClient));
    let mut screen = Screen::new_within(size(4), size(5), 1000, 20).unwrap();
    let mut copy = screen.try_clone().unwrap();
    for it in [&mut screen, &mut copy] {
        assert_eq!(it.resize(size(3), size(7)), Err(Error::TooLarge));
        assert_eq!((it.look().rows, it.look().cols), (4, 5));
        it.resize(size(20), size(1)).unwrap();
    }
    let refused = Screen::new_within(size(3), size(7), 0, 20).err();
    assert_eq!(
        refused.unwrap().to_string(),
        "the size has more cells than is allowed"
    );
}

#[test]
fn sessions() {
    for (name, rows) in [("build", 12), ("editor", 8)] {
        let examples = concat!(env!("CARGO_MANIFEST_DIR"), "/../../examples");
        let (mut hub, mut view, client) = pair(rows, 40);
        for piece in fs::read(format!("{examples}/{name}.session"))
            .unwrap()
            .chunks(7)
        {
            hub.feed(piece).unwrap();
            hub.frame(client).unwrap();
            hub.pump(client, &mut view).unwrap();
        }
        let shown: String = view.rows().map(|row| row.unwrap() + "\n").collect();
        assert_eq!(
            shown,
            fs::read_to_string(format!("{examples}/{name}.screen")).unwrap()
        );
    }
}

#[test]
fn cells() {
    let (_, mut view, _) = pair(2, 9);
    view.advance("\x1b[1;3;38;5;9;48;2;1;2;3m米\x1b[m\x1b[?1003;1006h\x1b[4 q".as_bytes());
    let cells: Vec<_> = view.cells(0).collect();
    assert_eq!(
        (cells.len(), view.cells(2).count(), view.cell(0, 9)),
        (9, 0, None)
    );
    assert_eq!(
        (
            cells[0].contents(),
            cells[0].is_wide(),
            cells[1].is_wide_continuation()
        ),
        ("米", true, true)
    );
    assert_eq!(
        (cells[0].fgcolor(), cells[0].bgcolor()),
        (Color::Idx(9), Color::Rgb(1, 2, 3))
    );
    assert_eq!(
        (
            cells[0].bold(),
            cells[0].italic(),
            cells[0].dim(),
            cells[0].inverse()
        ),
        (true, true, false, false)
    );
    assert!(!cells[2].has_contents() && cells[2] == cells[3] && cells[0] != cells[2]);
    let look = view.look();
    assert_eq!((look.rows, look.cols, look.cursor), (2, 9, (0, 2)));
    assert_eq!(look.mouse_protocol_mode, MouseProtocolMode::AnyMotion);
    assert_eq!(look.mouse_protocol_encoding, MouseProtocolEncoding::Sgr);
}

#[test]
fn what_a_view_holds_back() {
    let (_, mut view, _) = pair(1, 9);
    view.write_all(b"\x1b[?2026hnow").unwrap();
    assert_eq!(
        (view.row_text(0).unwrap().as_str(), view.held() > 0),
        ("", true)
    );
    view.stop();
    assert_eq!(
        (view.row_text(0).unwrap().as_str(), view.held()),
        ("now", 0)
    );
}

#[test]
fn screens() {
    let mut screen = Screen::new(size(2), size(5), 3).unwrap();
    screen
        .process(b"a\r\nb\r\nc\r\nd\x07\x1b]2;title\x07\x1b]52;cp;aGk=\x07")
        .unwrap();
    screen.scroll(9).unwrap();
    assert_eq!(
        (screen.look().scrollback_len, screen.look().scrollback),
        (2, 2)
    );
    assert_eq!(screen.contents().unwrap(), "a\nb");
    assert_eq!(screen.contents_between((0, 0), (1, 1)).unwrap(), "a\nb");
    let copy = Request::Copy {
        clipboards: b"cp".to_vec(),
        data: b"aGk=".to_vec(),
    };
    let requests: Vec<_> = screen.requests().collect();
    assert_eq!(
        requests,
        [Request::Bell, Request::Title(b"title".to_vec()), copy]
    );
    screen.resize(size(3), size(4)).unwrap();
    assert_eq!((screen.look().rows, screen.look().cols), (3, 4));
    assert_eq!(screen.difference(), screen.state_formatted());
}

#[test]
fn copies() {
    let mut screen = Screen::new(size(2), size(5), 3).unwrap();
    screen.process(b"a\r\nb\r\nc\x07").unwrap();
    let mut copy = screen.try_clone().unwrap();
    assert_eq!(
        (copy.look(), copy.contents()),
        (screen.look(), screen.contents())
    );
    assert_eq!((copy.requests().count(), screen.requests().count()), (0, 1));
    copy.process(b"\x1b[Hx").unwrap();
    assert_eq!(copy.state_diff(&screen).unwrap(), "\x1b[Hx");
    assert_eq!(screen.contents().unwrap(), "b\nc");
    assert_eq!(screen.row(0).unwrap().0.len(), 5);
    assert!(screen.row(2).is_none());
    let moved = std::thread::spawn(move || copy.contents().unwrap());
    assert_eq!(moved.join().unwrap(), "x\nc");
}

#[test]
fn copies_of_what_is_shown() {
    let mut screen = Screen::new(size(2), size(5), 3).unwrap();
    screen.process(b"a\r\nb\r\nc\r\nd").unwrap();
    let bottom = screen.try_clone_visible().unwrap();
    screen.scroll(1).unwrap();
    let shown = screen.try_clone_visible().unwrap();
    assert_eq!(
        (shown.look().scrollback_len, shown.look().scrollback),
        (0, 0)
    );
    let mut fresh = Screen::new(size(2), size(5), 0).unwrap();
    fresh
        .process(bottom.state_formatted().unwrap().as_bytes())
        .unwrap();
    assert_eq!(fresh.contents().unwrap(), "c\nd");
    fresh
        .process(shown.state_diff(&bottom).unwrap().as_bytes())
        .unwrap();
    assert_eq!(fresh.contents().unwrap(), "b\nc");
}

#[test]
fn a_queue_is_bounded() {
    let mut screen = Screen::new(size(2), size(5), 0).unwrap();
    let name = [b'x'; 1021];
    screen.process(b"\x1b]2;").unwrap();
    screen.process(&name).unwrap();
    screen.process(&[7; 257]).unwrap(); // the first ends the title
    assert_eq!(
        screen.requests().next(),
        Some(Request::Title(name.to_vec()))
    );
    assert_eq!(screen.dropped_requests(), 1);
    assert_eq!(screen.requests().count(), 255);
    screen.process(b"\x07").unwrap();
    assert_eq!(screen.requests().count(), 1);
    assert_eq!(screen.dropped_requests(), 1);
}

#[test]
fn threads_with_an_object_each() {
    let threads = ["a", "b"].map(|letter| {
        thread::spawn(move || {
            let (mut hub, mut view, client) = pair(3, 20);
            for time in 0..500 {
                hub.feed(format!("\x1b[H{letter}{time}").as_bytes())
                    .unwrap();
                hub.frame(client).unwrap();
                hub.pump(client, &mut view).unwrap();
            }
            view.row_text(0).unwrap()
        })
    });
    assert_eq!(threads.map(|it| it.join().unwrap()), ["a499", "b499"]);
}

#[test]
fn recordings() {
    let cast = b"{\"version\": 3, \"term\": {\"cols\": 80, \"rows\": 24}}\n[0.5, \"o\", \"hi\"]\n\
        [0.25, \"r\", \"90x30\"]\n[1, \"m\", \"here\"]\nnone\n";
    let recording = Recording::new(cast).unwrap();
    assert_eq!(recording.kind(), Kind::Asciicast);
    assert_eq!(recording.size(), Some((size(24), size(80))));
    assert_eq!(recording.most_cells(), 30 * 90);
    assert_eq!(
        (recording.length(), recording.event_count()),
        (1_750_000, 3)
    );
    assert_eq!(recording.fault(), Some(Fault::Line(5)));
    assert_eq!(recording.colors(), None);
    let events: Vec<_> = recording.events().map(|it| it.unwrap()).collect();
    let told: Vec<_> = events.iter().map(|it| (it.time, &it.change)).collect();
    let want = [
        (500_000, &Change::Output(b"hi".to_vec())),
        (750_000, &Change::Resize(size(30), size(90))),
        (1_750_000, &Change::Marker("here".to_string())),
    ];
    assert_eq!(told, want);
    assert_eq!(recording.event(3), Ok(None));
    let script = Recording::of_script(b"began\nabc", b"0.25 2\n").unwrap();
    assert_eq!((script.kind(), script.fault()), (Kind::Typescript, None));
    let large = Recording::new(&[b'x'; 5000]).unwrap();
    let moved = thread::spawn(move || large.event(0).unwrap().unwrap().change);
    assert_eq!(moved.join().unwrap(), Change::Output(vec![b'x'; 5000]));
    assert_eq!(Recording::new(b"\x1f\x8b").err(), Some(Error::Compressed));
    assert_eq!(
        Recording::new(b"{\"version\": 1}\n").err(),
        Some(Error::NoHeader)
    );
}

#[test]
fn a_hub_goes_from_thread_to_thread() {
    let (mut hub, mut view, client) = pair(3, 20);
    for time in 0..20 {
        (hub, view) = thread::spawn(move || {
            let other = hub.attach().unwrap(); // shares the screen of the other one's frame
            hub.feed(format!("\x1b[H{time}").as_bytes()).unwrap();
            hub.frame(client).unwrap();
            hub.frame(other).unwrap();
            hub.pump(client, &mut view).unwrap();
            hub.detach(other).unwrap();
            (hub, view)
        })
        .join()
        .unwrap();
        assert_eq!(view.row_text(0).unwrap(), time.to_string());
    }
    let shared = std::sync::Mutex::new(hub);
    thread::scope(|scope| {
        for _ in 0..4 {
            scope.spawn(|| {
                let mut hub = shared.lock().unwrap();
                let client = hub.attach().unwrap();
                assert_eq!(hub.frame(client).unwrap(), jeihpal::Answer::Full);
            });
        }
    });
    assert_eq!(shared.lock().unwrap().contents().unwrap(), "19");
}

/// A program for `vt100`, with its `use` line alone changed.
mod as_vt100 {
    use jeihpal::vt100;

    struct Window {
        bells: usize,
        title: String,
    }

    impl vt100::Callbacks for Window {
        fn audible_bell(&mut self, _: &mut vt100::Screen) {
            self.bells += 1;
        }

        fn set_window_title(&mut self, screen: &mut vt100::Screen, title: &[u8]) {
            self.title = format!(
                "{} {:?}",
                String::from_utf8_lossy(title),
                screen.cursor_position()
            );
        }
    }

    #[test]
    fn a_program() {
        let mut parser = vt100::Parser::new(super::size(24), super::size(80), 0);
        parser.process(b"this text is \x1b[31mRED\x1b[m");
        assert_eq!(
            parser.screen().cell(0, 13).unwrap().fgcolor(),
            vt100::Color::Idx(1)
        );
        assert_eq!(parser.screen().cell(0, 16).unwrap().contents(), "");
        assert!(parser.screen().cell(24, 0).is_none());
        let screen = parser.screen();
        assert_eq!(
            screen.contents_formatted().as_bytes(),
            b"\x1b[?25h\x1b[m\x1b[H\x1b[Jthis text is \x1b[31mRED\x1b[m"
        );
        assert_eq!(screen.rows(5, 4).next().unwrap(), "text");
        assert_eq!(
            (screen.rows(0, 80).count(), screen.size().1.get()),
            (24, 80)
        );
        let before = parser.screen().clone();
        parser.process(b"\x1b[3D\x1b[32mGREEN");
        assert_eq!(parser.screen().contents(), "this text is GREEN");
        assert_eq!(before.contents(), "this text is RED");
        assert_eq!(
            parser.screen().state_diff(&before),
            "\x1b[1;14H\x1b[32mGREEN"
        );
        parser
            .screen_mut()
            .set_size(super::size(10), super::size(20));
        assert_eq!(parser.screen().cursor_position(), (0, 18));
    }

    #[test]
    fn what_a_screen_tells() {
        let mut parser = vt100::Parser::new(super::size(3), super::size(5), 10);
        parser.process(b"abcdefg\r\n\x1b[1;31mred\x1b[?2004h\x1b[4m");
        let screen = parser.screen();
        assert_eq!(
            (screen.row_wrapped(0), screen.row_wrapped(1)),
            (true, false)
        );
        assert_eq!(
            (screen.fgcolor(), screen.bgcolor()),
            (vt100::Color::Idx(1), vt100::Color::Default)
        );
        assert!(
            screen.bold()
                && screen.underline()
                && !screen.italic()
                && !screen.dim()
                && !screen.inverse()
        );
        assert_eq!(screen.attributes_formatted(), "\x1b[m\x1b[31;1;4m");
        assert_eq!(screen.input_mode_formatted(), "\x1b>\x1b[?1l\x1b[?2004h");
        assert_eq!(screen.cursor_state_formatted(), "\x1b[?25h\x1b[3;4H");
        let rows: Vec<String> = screen.rows_formatted(0, 5).collect();
        assert_eq!(rows, ["abcde", "fg", "\x1b[31;1mred"]);
        assert_eq!(screen.contents_formatted_basic(), "abcdefg\n\x1b[31;1mred");
        let before = screen.clone();
        parser.process(b"\x1b[m\x1b[1;2Hx\x1b[?2004l");
        let screen = parser.screen();
        assert_eq!(screen.input_mode_diff(&before), "\x1b[?2004l");
        let changed: Vec<String> = screen.rows_diff(&before, 0, 5).collect();
        assert_eq!(changed, ["\x1b[Cx", "", ""]);
        assert_eq!(screen.contents_diff(screen), "");
        assert_eq!(
            (screen.scrollback_capacity(), screen.scrollback_len()),
            (10, 0)
        );
        parser.process(b"\r\n\r\n\r\n\r\n");
        assert_eq!(parser.screen().scrollback_len(), 2);
        parser.screen_mut().clear_scrollback();
        assert_eq!(parser.screen().scrollback_len(), 0);
    }

    #[test]
    fn a_cell_is_lent_until_the_screen_changes() {
        let mut parser = vt100::Parser::default();
        parser.process("米x".as_bytes());
        let (wide, x): (&vt100::Cell, &vt100::Cell) = (
            parser.screen().cell(0, 0).unwrap(),
            parser.screen().cell(0, 2).unwrap(),
        );
        assert_eq!(
            (wide.contents(), wide.is_wide(), x.contents()),
            ("米", true, "x")
        );
        parser.process(b"\x1b[Hyy");
        assert_eq!(parser.screen().cell(0, 0).unwrap().contents(), "y");
    }

    /// The first cells are read one by one, and others with their rows.
    #[test]
    fn few_cells_and_many() {
        let mut parser = vt100::Parser::new(super::size(3), super::size(4), 9);
        parser.process(b"abcd\r\nefgh\r\nijkl");
        for _ in 0..2 {
            let screen = parser.screen();
            let text = |row, col| screen.cell(row, col).map(vt100::Cell::contents);
            assert_eq!((text(3, 0), text(0, 4)), (None, None));
            let few = [text(1, 1), text(2, 3), text(1, 1), text(0, 0)];
            assert_eq!(few, ["f", "l", "f", "a"].map(Some));
            let all: Vec<_> = (0..12).filter_map(|n| text(n / 4, n % 4)).collect();
            assert_eq!(all.concat(), "abcdefghijkl");
            parser.process(b"\x1b[2;2Hf");
        }
        parser.set_size(super::size(2), super::size(3));
        assert!(!parser.screen().row_wrapped(2)); // it is below the screen
        parser.set_size(super::size(4), super::size(3));
        assert_eq!(parser.screen().rows(0, 3).count(), 4);
        assert!((0..12).all(|n| parser.screen().cell(n / 3, n % 3).is_some()));
        parser.set_size(super::size(2), super::size(3));
        let text = |row, col| parser.screen().cell(row, col).map(vt100::Cell::contents);
        assert_eq!(parser.screen().size(), (super::size(2), super::size(3)));
        assert_eq!(
            [text(0, 2), text(1, 2), text(1, 3), text(2, 0)],
            [Some("c"), Some("g"), None, None]
        );
    }

    /// All that can be read of a screen, each read twice.
    fn said(screen: &vt100::Screen) -> Vec<String> {
        let (rows, cols) = screen.size();
        let mut said = Vec::new();
        for _ in 0..2 {
            said.push(format!("{:?}", screen.cell(1, 1).cloned()));
            said.push(format!("{:?}", screen.cell(0, 2).cloned()));
            said.push(format!(
                "{:?}",
                (0..rows.get())
                    .map(|row| screen.row_wrapped(row))
                    .collect::<Vec<_>>()
            ));
            let places = (0..rows.get()).flat_map(|row| (0..cols.get()).map(move |col| (row, col)));
            said.extend(places.map(|(row, col)| format!("{:?}", screen.cell(row, col))));
            said.push(format!(
                "{:?} {:?} {}",
                screen.cursor_position(),
                screen.cursor_style(),
                screen.hide_cursor()
            ));
            said.push(format!(
                "{:?} {} {}",
                screen.fgcolor(),
                screen.bold(),
                screen.scrollback()
            ));
            said.extend([
                screen.input_mode_formatted(),
                screen.attributes_formatted(),
                screen.cursor_state_formatted(),
            ]);
        }
        said
    }

    /// What is read again is the same as in a copy, of which nothing has been read.
    #[test]
    fn what_is_read_follows_each_change() {
        let mut parser = vt100::Parser::new(super::size(3), super::size(4), 9);
        let pieces: [&[u8]; 12] = [
            b"ab",
            b"cdef",
            b"\x1b[31m",
            b"\x1b[?1h\x1b=",
            b"\x1b[m\r\n",
            b"gh\x1b[?2004h",
            b"\x1b[?25l",
            b"\x1b[4 q\x1b[1m",
            b"\x1b[H\x1b[J",
            "ä米".as_bytes(),
            b"\x1b[?1000h\x1b[?1006h",
            b"ijklmnopqrstuvw",
        ];
        for piece in pieces {
            parser.process(piece);
            assert_eq!(said(parser.screen()), said(&parser.screen().clone()));
        }
        let changes: [fn(&mut vt100::Screen); 4] = [
            |screen| screen.set_scrollback(2),
            |screen| screen.set_size(super::size(5), super::size(3)),
            |screen| screen.set_size(super::size(2), super::size(6)),
            vt100::Screen::clear_scrollback,
        ];
        for change in changes {
            change(parser.screen_mut());
            assert_eq!(said(parser.screen()), said(&parser.screen().clone()));
        }
    }

    #[test]
    fn threads_read_one_screen() {
        let mut parser = vt100::Parser::new(super::size(3), super::size(4), 9);
        for n in 0..50 {
            parser.process(format!("line {n}\x1b[3{}m", n % 8).as_bytes());
            let (screen, want) = (parser.screen(), said(&parser.screen().clone()));
            std::thread::scope(|scope| {
                let readers = [(); 4].map(|()| scope.spawn(|| said(screen)));
                for reader in readers {
                    assert_eq!(reader.join().unwrap(), want);
                }
            });
        }
    }

    #[test]
    fn what_a_screen_may_be_given_to() {
        use std::panic::{RefUnwindSafe, UnwindSafe};
        fn may_be_shared<T: Send + Sync + Unpin + UnwindSafe + RefUnwindSafe>() {}
        may_be_shared::<vt100::Parser>();
    }

    #[test]
    fn a_parser_is_shared() {
        use std::sync::{Arc, Mutex};
        let parser = Arc::new(Mutex::new(vt100::Parser::default()));
        let theirs = Arc::clone(&parser);
        let writer = std::thread::spawn(move || {
            for _ in 0..200 {
                theirs.lock().unwrap().process(b"line\r\n");
            }
        });
        for _ in 0..200 {
            let screen = parser.lock().unwrap().screen().clone();
            assert!(screen
                .rows(0, 80)
                .all(|row| row.is_empty() || row == "line"));
        }
        writer.join().unwrap();
        let screen = parser.lock().unwrap().screen().clone();
        std::thread::scope(|scope| {
            let read = || scope.spawn(|| screen.cell(0, 0).unwrap().contents().to_string());
            assert_eq!([read(), read()].map(|it| it.join().unwrap()), ["l", "l"]);
        });
    }

    #[test]
    fn callbacks() {
        let window = Window {
            bells: 0,
            title: String::new(),
        };
        let mut parser =
            vt100::Parser::new_with_callbacks(super::size(24), super::size(80), 0, window);
        parser.process(&b"\x07".repeat(3000));
        parser.process(b"ab\x1b]2;title\x07");
        assert_eq!(
            (parser.callbacks().bells, parser.callbacks().title.as_str()),
            (3000, "title (0, 2)")
        );
        // The callback is called with the screen after the title, not after all the bytes.
        parser.process(b"\x1b]2;again\x07cd\r\n");
        assert_eq!(parser.callbacks().title, "again (0, 2)");
    }
}
