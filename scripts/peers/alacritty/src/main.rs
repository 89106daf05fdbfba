//! Reads a stream into a terminal of alacritty_terminal again and again:
//! `peer_alacritty screen|kept ROWS COLS TIMES < STREAM`. Or has one that keeps 100,000 rows scroll back, give its text
//! or resize: `peer_alacritty scrollback|contents|resize ROWS COLS TIMES < STREAM`.
use alacritty_terminal::ansi::Processor;
use alacritty_terminal::config::Config;
use alacritty_terminal::event::VoidListener;
use alacritty_terminal::grid::{Dimensions, Scroll};
use alacritty_terminal::index::{Column, Line, Point};
use alacritty_terminal::term::test::TermSize;
use alacritty_terminal::Term;
use std::io::Read;

const PIECE_LEN: usize = 4096;
const KEPT_ROWS: u32 = 10_000;
const MANY_ROWS: u32 = 100_000;
const MOST_READS: usize = 32;
const WIDER: usize = 20;

fn read(terminal: &mut Term<VoidListener>, stream: &[u8]) {
    let mut processor = Processor::new();
    for piece in stream.chunks(PIECE_LEN) {
        for byte in piece {
            processor.advance(terminal, *byte);
        }
    }
}

/// Scrolls back to where a terminal of ours does.
fn scroll(terminal: &mut Term<VoidListener>, time: usize) -> usize {
    terminal.scroll_display(Scroll::Bottom);
    terminal.scroll_display(Scroll::Delta((time.wrapping_mul(7919) % MANY_ROWS as usize) as i32));
    terminal.grid().display_offset()
}

/// The text of the rows that are shown.
fn contents(terminal: &Term<VoidListener>) -> String {
    let first = -(terminal.grid().display_offset() as i32);
    let last = first + terminal.screen_lines() as i32 - 1;
    let end = Column(terminal.columns() - 1);
    terminal.bounds_to_string(Point::new(Line(first), Column(0)), Point::new(Line(last), end))
}

/// Does the work on a terminal that keeps many rows.
fn kept(work: &str, size: (usize, usize), times: usize, stream: &[u8]) -> usize {
    let mut config = Config::default();
    config.scrolling.set_history(MANY_ROWS);
    let mut terminal = Term::new(&config, &TermSize::new(size.1, size.0), VoidListener);
    for _ in 0..MOST_READS {
        if terminal.history_size() < MANY_ROWS as usize {
            read(&mut terminal, stream);
        }
    }
    let mut count = 0;
    for time in 0..times {
        match work {
            "scrollback" => count += scroll(&mut terminal, time),
            "contents" => {
                scroll(&mut terminal, time);
                count += contents(&terminal).len();
            }
            _ => {
                let cols = size.1 + if time % 2 == 0 { WIDER } else { 0 };
                terminal.resize(TermSize::new(cols, size.0));
                count += terminal.history_size();
            }
        }
    }
    count
}

fn main() {
    let words: Vec<String> = std::env::args().skip(1).collect();
    let [work, rows, cols, times] = words.as_slice() else {
        std::process::exit(2);
    };
    let (rows, cols): (usize, usize) = (rows.parse().unwrap(), cols.parse().unwrap());
    let times: usize = times.parse().unwrap();
    let mut stream = Vec::new();
    std::io::stdin().read_to_end(&mut stream).unwrap();
    let history = match work.as_str() {
        "screen" => 0,
        "kept" => KEPT_ROWS,
        "scrollback" | "contents" | "resize" => {
            println!("{work} {}", kept(work, (rows, cols), times, &stream));
            return;
        }
        _ => std::process::exit(2),
    };
    let size = TermSize::new(cols, rows);
    let mut config = Config::default();
    config.scrolling.set_history(history);
    let mut count = 0;
    for _ in 0..times {
        let mut terminal = Term::new(&config, &size, VoidListener);
        read(&mut terminal, &stream);
        let cursor = terminal.grid().cursor.point;
        count = cursor.line.0 as usize + cursor.column.0;
    }
    println!("{work} {count}");
}
