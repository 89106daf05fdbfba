//! A screen with the names of the crate `vt100` 0.18.1: a program that uses what is here moves over by
//! `use jeihpal::vt100;`.
//!
//! ```
//! use jeihpal::vt100;
//!
//! let mut parser = vt100::Parser::default();
//! parser.process(b"this text is \x1b[31mRED\x1b[m");
//! let before = parser.screen().clone();
//! assert_eq!(before.cell(0, 13).unwrap().fgcolor(), vt100::Color::Idx(1));
//! parser.process(b"\x1b[3D\x1b[32mGREEN");
//! assert_eq!(parser.screen().contents(), "this text is GREEN");
//! assert_eq!(parser.screen().contents_diff(&before), "\x1b[1;14H\x1b[32mGREEN");
//! ```
//!
//! `docs/MOVING.md` lists item by item what is as there and what differs. In short:
//!
//! - [`Screen::cell`] has no cell outside of the screen's columns, even if a kept row is wider;
//! - malformed bytes that begin a character are reported ([`Callbacks::unhandled_char`]) after the byte that shows it;
//! - redraws and differences lead a terminal to the picture only if no kept row is shown, as in `vt100`;
//! - a call panics if an allocation fails. [`crate::Screen`] returns an error then.
pub mod capture;
mod kept;
mod osc;

use crate::cell::{Drawing, Look};
use crate::error::Result;
use crate::raw::{self, RawDrawing, RawLook};
use crate::screen::Request;
use crate::stops::Stops;
use capture::{BasicFormattedCaptureRange, BasicFormattedCaptureState, RowContents};
use kept::Kept;
use std::fmt;
use std::io;
use std::num::NonZeroU16;
use std::sync::{Mutex, MutexGuard, OnceLock, PoisonError};

pub use crate::cell::{Cell, Color, CursorStyle, MouseProtocolEncoding, MouseProtocolMode};

/// A cell that was read by itself: its row and its column, and what it is.
#[derive(Default)]
struct Single {
    place: (u16, u16),
    cell: Cell,
}

/// How many cells are read one by one before whole rows are read.
const SINGLES: usize = 4;

/// A row: its cells, and whether its text continues in the next row.
#[derive(Default)]
struct Row {
    cells: Kept<Vec<Cell>>,
    wrapped: Kept<bool>,
}

/// A screen that is read. A clone is a copy of its own.
///
/// It is `Send` and `Sync`. What is read of it is kept until the screen changes, so that a cell can be lent.
pub struct Screen {
    /// The lock lets one call of the library at a time in.
    screen: Mutex<crate::Screen>,
    rows_and_cols: (NonZeroU16, NonZeroU16),
    capacity: usize,
    /// Whether the library's queue gets what isn't known, and rows.
    told: (bool, bool),
    /// How many changes there were, plus one.
    turn: u64,
    /// Read at each change, where nobody else has the screen.
    look: RawLook,
    /// How the next character is drawn, as the library gives it and as callers get it. Once a caller has asked for it,
    /// it is read at each change.
    drawing: OnceLock<(RawDrawing, Drawing)>,
    /// The escape sequences that set the modes, kept while the modes stay as they are.
    modes_text: OnceLock<String>,
    /// The escape sequences that set how the next character is drawn, kept while this stays as it is.
    drawing_text: OnceLock<String>,
    cursor_text: Kept<String>,
    singles: [Kept<Single>; SINGLES],
    /// Made once a row is asked for. Room for cells is used again.
    rows: OnceLock<Box<[Row]>>,
}

impl Screen {
    fn of(
        screen: crate::Screen,
        rows_and_cols: (NonZeroU16, NonZeroU16),
        capacity: usize,
    ) -> Screen {
        let mut look = RawLook::default();
        screen.object().read_look(&mut look);
        Screen {
            screen: Mutex::new(screen),
            rows_and_cols,
            capacity,
            told: (false, false),
            turn: 1,
            look,
            drawing: OnceLock::new(),
            modes_text: OnceLock::new(),
            drawing_text: OnceLock::new(),
            cursor_text: Kept::default(),
            singles: Default::default(),
            rows: OnceLock::new(),
        }
    }

    #[inline]
    fn lock(&self) -> MutexGuard<'_, crate::Screen> {
        self.screen.lock().unwrap_or_else(PoisonError::into_inner)
    }

    /// The library's screen, for calls that change nothing that is read of it.
    fn inner(&mut self) -> &mut crate::Screen {
        self.screen
            .get_mut()
            .unwrap_or_else(PoisonError::into_inner)
    }

    /// Changes the screen: what was read of it is forgotten, or read again.
    #[inline]
    fn change<T>(&mut self, change: impl FnOnce(&mut crate::Screen) -> T) -> T {
        let screen = self
            .screen
            .get_mut()
            .unwrap_or_else(PoisonError::into_inner);
        let answer = change(screen);
        self.turn += 1;
        let modes = modes_of(&self.look);
        screen.object().read_look(&mut self.look);
        if modes != modes_of(&self.look) {
            self.modes_text.take();
        }
        if let Some((raw, drawing)) = self.drawing.get_mut() {
            let earlier = *raw;
            screen.read_drawing(raw);
            if *raw != earlier {
                *drawing = Drawing::of(raw);
                self.drawing_text.take();
            }
        }
        answer
    }

    /// Sets whether the library's queue gets what isn't known, and whether it gets rows, from now on.
    fn tell(&mut self, unknown: bool, rows: bool) {
        if self.told != (unknown, rows) {
            self.inner().tell(unknown, rows);
            self.told = (unknown, rows);
        }
    }

    /// Gives it another size.
    fn resized(&mut self, rows: NonZeroU16, cols: NonZeroU16) {
        self.change(|screen| screen.resize(rows, cols)).unwrap();
        self.rows_and_cols = (rows, cols);
        self.rows.take();
    }

    #[inline]
    fn look(&self) -> Look {
        Look::of(&self.look)
    }

    /// The cells of a row, if they have been read.
    #[inline]
    fn cells_read(&self, row: u16) -> Option<&Vec<Cell>> {
        let row = self.rows.get()?.get(usize::from(row))?;
        row.cells.get(self.turn)
    }

    fn row(&self, row: u16) -> Option<&Row> {
        let rows = self.rows.get_or_init(|| {
            let rows = (0..self.rows_and_cols.0.get()).map(|_| Row::default());
            rows.collect()
        });
        rows.get(usize::from(row))
    }

    /// Reads the cells of a row.
    fn read_cells(&self, row: u16) -> Option<&Vec<Cell>> {
        let kept = self.row(row)?;
        let (screen, cols) = (self.lock(), self.rows_and_cols.1.get());
        // SAFETY, here and below: the lock and the turn are the screen's, and a change of it borrows it alone.
        let cells = unsafe {
            kept.cells.get_or_read(self.turn, |cells| {
                let wrapped = screen.object().read_row(row, cols, cells);
                kept.wrapped
                    .get_or_read(self.turn, |kept| *kept = wrapped.unwrap_or_default());
            })
        };
        Some(cells)
    }

    /// A cell of a row that hasn't been read. A few cells are read by themselves; for more, their rows are read.
    fn unread_cell(&self, row: u16, col: u16) -> Option<&Cell> {
        let (rows, cols) = self.rows_and_cols;
        if row >= rows.get() || col >= cols.get() {
            return None;
        }
        let (place, mut count) = ((row, col), 0);
        for single in self.singles.iter().map_while(|it| it.get(self.turn)) {
            if single.place == place {
                return Some(&single.cell);
            }
            count += 1;
        }
        if count < SINGLES {
            if let Some(cell) = self.read_single(place) {
                return Some(cell);
            }
        }
        self.read_cells(row)?.get(usize::from(col))
    }

    /// Reads a cell by itself; nothing if there is no room for another one.
    fn read_single(&self, place: (u16, u16)) -> Option<&Cell> {
        let screen = self.lock();
        let read = |single: &mut Single| {
            let ((row, col), cell) = (place, &mut single.cell);
            if !screen.object().read_cell(row, col, cell) {
                *cell = Cell::default();
            }
            single.place = place;
        };
        for single in &self.singles {
            // Those before it may have been read by other threads.
            let single = unsafe { single.get_or_read(self.turn, read) };
            if single.place == place {
                return Some(&single.cell);
            }
        }
        None
    }

    #[inline]
    fn drawing(&self) -> &Drawing {
        &self.drawing.get_or_init(|| self.first_drawing()).1
    }

    #[cold]
    fn first_drawing(&self) -> (RawDrawing, Drawing) {
        let mut raw = RawDrawing::default();
        self.lock().read_drawing(&mut raw);
        (raw, Drawing::of(&raw))
    }

    /// What a call reads of this screen and an earlier one. Two threads may compare two screens the other way round, so
    /// both locks are taken in the order of their addresses.
    fn compared<T>(
        &self,
        earlier: &Screen,
        read: impl FnOnce(&crate::Screen, &crate::Screen) -> Result<T>,
    ) -> T {
        let (now, before);
        if std::ptr::eq(self, earlier) {
            now = self.lock();
            return read(&now, &now).unwrap();
        }
        if std::ptr::from_ref(self) < std::ptr::from_ref(earlier) {
            now = self.lock();
            before = earlier.lock();
        } else {
            before = earlier.lock();
            now = self.lock();
        }
        read(&now, &before).unwrap()
    }

    /// The rows and the columns.
    #[must_use]
    #[inline]
    pub fn size(&self) -> (NonZeroU16, NonZeroU16) {
        self.rows_and_cols
    }

    /// Gives it another size, without calls of [`Callbacks::on_scroll`]. Other than in `vt100` the program's
    /// synchronized update ends.
    pub fn set_size(&mut self, rows: NonZeroU16, cols: NonZeroU16) {
        self.tell(false, false);
        self.resized(rows, cols);
    }

    /// Shows the newest `rows` of the rows that have scrolled off, or all if there are fewer.
    pub fn set_scrollback(&mut self, rows: usize) {
        self.change(|screen| screen.scroll(rows)).unwrap();
    }

    /// How many of the rows that have scrolled off are shown.
    #[must_use]
    #[inline]
    pub fn scrollback(&self) -> usize {
        self.look().scrollback
    }

    /// How many rows have scrolled off and are kept.
    #[must_use]
    #[inline]
    pub fn scrollback_len(&self) -> usize {
        self.look().scrollback_len
    }

    /// How many rows the shown screen keeps at most: 0 if it is the alternate one.
    #[must_use]
    pub fn scrollback_capacity(&self) -> usize {
        if self.alternate_screen() {
            0
        } else {
            self.capacity
        }
    }

    /// Removes the rows that have scrolled off.
    pub fn clear_scrollback(&mut self) {
        self.change(crate::Screen::clear_scrollback).unwrap();
    }

    /// The text.
    #[must_use]
    pub fn contents(&self) -> String {
        self.lock().contents().unwrap()
    }

    /// The text of each row: `width` columns from column `start` on.
    pub fn rows(&self, start: u16, width: u16) -> impl Iterator<Item = String> + '_ {
        let end = start.saturating_add(width);
        let rows = self.rows_and_cols.0.get();
        (0..rows).map(move |row| self.contents_between(row, start, row, end))
    }

    /// The text from one place up to another.
    #[must_use]
    pub fn contents_between(
        &self,
        start_row: u16,
        start_col: u16,
        end_row: u16,
        end_col: u16,
    ) -> String {
        self.lock()
            .contents_between((start_row, start_col), (end_row, end_col))
            .unwrap()
    }

    /// The escape sequences that take a fresh terminal of this size to the picture, the modes and the cursor's style.
    #[must_use]
    pub fn state_formatted(&self) -> String {
        self.lock().state_formatted().unwrap()
    }

    /// The escape sequences that take a terminal from all that an earlier screen shows to all that this one shows.
    #[must_use]
    pub fn state_diff(&self, prev: &Self) -> String {
        self.compared(prev, |now, before| now.state_diff(before))
    }

    /// The escape sequences that take a terminal of this size to the picture.
    #[must_use]
    pub fn contents_formatted(&self) -> String {
        self.lock().contents_formatted().unwrap()
    }

    /// The rows as text with its attributes alone.
    #[must_use]
    pub fn contents_formatted_basic(&self) -> String {
        self.lock().contents_formatted_basic().unwrap()
    }

    /// Writes rows as text with its attributes alone: those that are shown, or all from the oldest kept one on. The
    /// only error is the writer's.
    pub fn write_contents_formatted_basic(
        &self,
        writer: &mut impl fmt::Write,
        range: BasicFormattedCaptureRange<'_>,
    ) -> fmt::Result {
        match range {
            BasicFormattedCaptureRange::Visible => {
                writer.write_str(&self.contents_formatted_basic())
            }
            BasicFormattedCaptureRange::Full(state) => self.write_all_rows(writer, state),
        }
    }

    /// Writes the kept rows and those that are drawn on. A copy of the screen shows them, as many at a time as it has.
    fn write_all_rows(
        &self,
        writer: &mut impl fmt::Write,
        state: &mut BasicFormattedCaptureState,
    ) -> fmt::Result {
        let mut copy = self.lock().try_clone().unwrap();
        let rows = self.rows_and_cols.0.get();
        let mut left = self.look().scrollback_len;
        loop {
            copy.scroll(left).unwrap();
            let count = u16::try_from(left).map_or(rows, |left| rows.min(left));
            let count = if left == 0 { rows } else { count };
            for row in 0..count {
                let (cells, wrapped) = whole_row(&copy, row);
                capture::write_cells(writer, &cells, wrapped, state)?;
            }
            if left == 0 {
                return Ok(());
            }
            left -= usize::from(count);
        }
    }

    /// The escape sequences that draw each row: `width` columns from column `start` on.
    pub fn rows_formatted(&self, start: u16, width: u16) -> impl Iterator<Item = String> + '_ {
        let rows = self.lock().rows_formatted(start, width).unwrap();
        rows.into_iter()
    }

    /// The escape sequences that take a terminal from the picture of an earlier screen to this one's.
    #[must_use]
    pub fn contents_diff(&self, prev: &Self) -> String {
        self.compared(prev, |now, before| now.contents_diff(before))
    }

    /// The escape sequences that draw each row over the one that an earlier screen shows there.
    pub fn rows_diff<'a>(
        &'a self,
        prev: &'a Self,
        start: u16,
        width: u16,
    ) -> impl Iterator<Item = String> + 'a {
        let rows = self.compared(prev, |now, before| now.rows_diff(before, start, width));
        rows.into_iter()
    }

    /// The escape sequences that set the modes.
    #[must_use]
    pub fn input_mode_formatted(&self) -> String {
        let read = || self.lock().input_mode_formatted().unwrap();
        self.modes_text.get_or_init(read).clone()
    }

    /// The escape sequences that change the modes from those of an earlier screen to these.
    #[must_use]
    pub fn input_mode_diff(&self, prev: &Self) -> String {
        self.compared(prev, |now, before| now.input_mode_diff(before))
    }

    /// The escape sequences that set how the next character is drawn.
    #[must_use]
    pub fn attributes_formatted(&self) -> String {
        self.drawing(); // so that changes read it again
        let read = || self.lock().attributes_formatted().unwrap();
        self.drawing_text.get_or_init(read).clone()
    }

    /// The cursor's row and column. The column is the width if the next character goes to the next row.
    #[must_use]
    #[inline]
    pub fn cursor_position(&self) -> (u16, u16) {
        self.look().cursor
    }

    /// The escape sequences that bring the cursor to where it is, and hide or show it.
    #[must_use]
    pub fn cursor_state_formatted(&self) -> String {
        if let Some(text) = self.cursor_text.get(self.turn) {
            return text.clone();
        }
        let screen = self.lock();
        let read = |text: &mut String| {
            let function = raw::jeihpal_screen_cursor_state_formatted;
            screen.object().read_text(function, text).unwrap();
        };
        unsafe { self.cursor_text.get_or_read(self.turn, read).clone() }
    }

    /// How the cursor looks.
    #[must_use]
    #[inline]
    pub fn cursor_style(&self) -> CursorStyle {
        self.look().cursor_style
    }

    /// The cell at a place.
    #[must_use]
    #[inline]
    pub fn cell(&self, row: u16, col: u16) -> Option<&Cell> {
        match self.cells_read(row) {
            Some(cells) => cells.get(usize::from(col)),
            None => self.unread_cell(row, col),
        }
    }

    /// Whether the text of a row continues in the next one.
    #[must_use]
    pub fn row_wrapped(&self, row: u16) -> bool {
        let Some(kept) = self.row(row) else {
            return false;
        };
        if let Some(wrapped) = kept.wrapped.get(self.turn) {
            return *wrapped;
        }
        let screen = self.lock();
        let read = |kept: &mut bool| {
            let wrapped = screen.object().read_row(row, 0, &mut Vec::new());
            *kept = wrapped.unwrap_or_default();
        };
        // SAFETY: as where cells are read.
        unsafe { *kept.wrapped.get_or_read(self.turn, read) }
    }

    /// Whether the alternate screen is shown.
    #[must_use]
    #[inline]
    pub fn alternate_screen(&self) -> bool {
        self.look().alternate_screen
    }

    /// Whether the keypad sends application sequences.
    #[must_use]
    #[inline]
    pub fn application_keypad(&self) -> bool {
        self.look().application_keypad
    }

    /// Whether the cursor keys send application sequences.
    #[must_use]
    #[inline]
    pub fn application_cursor(&self) -> bool {
        self.look().application_cursor
    }

    /// Whether the cursor is hidden.
    #[must_use]
    #[inline]
    pub fn hide_cursor(&self) -> bool {
        self.look().hide_cursor
    }

    /// Whether pasted text is marked as such.
    #[must_use]
    #[inline]
    pub fn bracketed_paste(&self) -> bool {
        self.look().bracketed_paste
    }

    /// Which events of the mouse are asked for.
    #[must_use]
    #[inline]
    pub fn mouse_protocol_mode(&self) -> MouseProtocolMode {
        self.look().mouse_protocol_mode
    }

    /// How events of the mouse are written.
    #[must_use]
    #[inline]
    pub fn mouse_protocol_encoding(&self) -> MouseProtocolEncoding {
        self.look().mouse_protocol_encoding
    }

    /// The colour of the next character.
    #[must_use]
    #[inline]
    pub fn fgcolor(&self) -> Color {
        self.drawing().fgcolor
    }

    /// The background colour of the next character.
    #[must_use]
    #[inline]
    pub fn bgcolor(&self) -> Color {
        self.drawing().bgcolor
    }

    /// Whether the next character is bold.
    #[must_use]
    #[inline]
    pub fn bold(&self) -> bool {
        self.drawing().bold
    }

    /// Whether the next character is dim.
    #[must_use]
    #[inline]
    pub fn dim(&self) -> bool {
        self.drawing().dim
    }

    /// Whether the next character is italic.
    #[must_use]
    #[inline]
    pub fn italic(&self) -> bool {
        self.drawing().italic
    }

    /// Whether the next character is underlined.
    #[must_use]
    #[inline]
    pub fn underline(&self) -> bool {
        self.drawing().underline
    }

    /// Whether the next character's colours are exchanged.
    #[must_use]
    #[inline]
    pub fn inverse(&self) -> bool {
        self.drawing().inverse
    }
}

/// The modes that [`Screen::input_mode_formatted`] sets, and the cursor's style.
#[inline]
fn modes_of(look: &RawLook) -> [u8; 6] {
    [
        look.keypad,
        look.cursor_keys,
        look.paste,
        look.mouse,
        look.encoding,
        look.style,
    ]
}

/// The cells of a row, also those past the screen's columns, which a kept row may have, and whether its text goes on.
fn whole_row(screen: &crate::Screen, row: u16) -> (Vec<Cell>, bool) {
    let (mut cells, wrapped) = screen.row(row).unwrap_or_default();
    while let Some(cell) = u16::try_from(cells.len())
        .ok()
        .and_then(|col| screen.cell(row, col))
    {
        cells.push(cell);
    }
    (cells, wrapped)
}

impl Clone for Screen {
    fn clone(&self) -> Screen {
        let copy = self.lock().try_clone().unwrap();
        Screen::of(copy, self.rows_and_cols, self.capacity)
    }
}

impl fmt::Debug for Screen {
    fn fmt(&self, f: &mut fmt::Formatter<'_>) -> fmt::Result {
        f.debug_struct("Screen")
            .field("size", &self.size())
            .field("cursor", &self.cursor_position())
            .field("contents", &self.contents())
            .finish_non_exhaustive()
    }
}

/// What a program asks of its terminal beyond drawing, what the screen doesn't know, and rows that leave it for good.
/// Each method does nothing unless it is overridden.
///
/// A method is called with the screen as it is after the bytes that ask for it.
pub trait Callbacks {
    /// BEL.
    fn audible_bell(&mut self, _: &mut Screen) {}
    /// `ESC g`.
    fn visual_bell(&mut self, _: &mut Screen) {}
    /// This many rows and columns.
    fn resize(&mut self, _: &mut Screen, _request: (u16, u16)) {}
    /// The name of the window's icon.
    fn set_window_icon_name(&mut self, _: &mut Screen, _icon_name: &[u8]) {}
    /// The window's title.
    fn set_window_title(&mut self, _: &mut Screen, _title: &[u8]) {}
    /// Data in base64 for clipboards, which are named by letters.
    fn copy_to_clipboard(&mut self, _: &mut Screen, _ty: &[u8], _data: &[u8]) {}
    /// Clipboards whose data is asked for.
    fn paste_from_clipboard(&mut self, _: &mut Screen, _ty: &[u8]) {}
    /// U+FFFD, which malformed bytes give too. If such bytes begin a character, the screen has read the byte after
    /// them.
    fn unhandled_char(&mut self, _: &mut Screen, _c: char) {}
    /// A control that does nothing.
    fn unhandled_control(&mut self, _: &mut Screen, _b: u8) {}
    /// An escape sequence that does nothing: its first two intermediates and its final byte.
    fn unhandled_escape(&mut self, _: &mut Screen, _i1: Option<u8>, _i2: Option<u8>, _b: u8) {}
    /// A control sequence that does nothing, or a group of parameters in it that does nothing: its first two
    /// intermediates, its parameters and its final byte.
    fn unhandled_csi(
        &mut self,
        _: &mut Screen,
        _i1: Option<u8>,
        _i2: Option<u8>,
        _params: &[&[u16]],
        _c: char,
    ) {
    }
    /// An operating system command that does nothing: its pieces.
    fn unhandled_osc(&mut self, _: &mut Screen, _params: &[&[u8]]) {}
    /// A row left for good: it was kept and is pushed out, or it left the screen and isn't kept. Rows also leave if
    /// [`Parser::set_size`] makes the screen lower.
    fn on_scroll(&mut self, contents: RowContents<'_>, _alternate_screen: bool) {
        contents.is_unread_by(std::any::type_name::<Self>());
    }

    /// Whether any method is overridden. If it returns false, none is called.
    #[doc(hidden)]
    fn are_wanted(&self) -> bool {
        true
    }
}

impl Callbacks for () {
    fn are_wanted(&self) -> bool {
        false
    }
}

/// Makes a screen of bytes.
///
/// It is `Send` and `Sync` if its callbacks are.
///
/// ```
/// use std::sync::{Arc, Mutex};
/// use jeihpal::vt100::Parser;
///
/// let parser = Arc::new(Mutex::new(Parser::default()));
/// let theirs = Arc::clone(&parser);
/// std::thread::spawn(move || theirs.lock().unwrap().process(b"hello")).join().unwrap();
/// assert_eq!(parser.lock().unwrap().screen().contents(), "hello");
/// ```
pub struct Parser<CB: Callbacks = ()> {
    screen: Screen,
    callbacks: CB,
    stops: Stops,
    /// Room for the requests of a piece.
    requests: Vec<Request>,
    /// The callback for rows isn't overridden, as its call for a row has shown.
    are_rows_unread: bool,
}

impl Parser {
    /// The rows of [`Parser::default`]: 24.
    pub const DEFAULT_ROWS: NonZeroU16 = match NonZeroU16::new(24) {
        Some(n) => n,
        None => unreachable!(),
    };

    /// The columns of [`Parser::default`]: 80.
    pub const DEFAULT_COLS: NonZeroU16 = match NonZeroU16::new(80) {
        Some(n) => n,
        None => unreachable!(),
    };

    /// A blank screen of this size that keeps at most `scrollback_capacity` rows that scroll off.
    #[must_use]
    pub fn new(rows: NonZeroU16, cols: NonZeroU16, scrollback_capacity: usize) -> Self {
        Self::new_with_callbacks(rows, cols, scrollback_capacity, ())
    }
}

impl<CB: Callbacks> Parser<CB> {
    /// As `new`, with callbacks.
    pub fn new_with_callbacks(
        rows: NonZeroU16,
        cols: NonZeroU16,
        scrollback_capacity: usize,
        callbacks: CB,
    ) -> Self {
        let screen = crate::Screen::new(rows, cols, scrollback_capacity).unwrap();
        Parser {
            screen: Screen::of(screen, (rows, cols), scrollback_capacity),
            callbacks,
            stops: Stops::default(),
            requests: Vec::new(),
            are_rows_unread: false,
        }
    }

    /// Reads the program's next bytes. They may be cut anywhere.
    pub fn process(&mut self, bytes: &[u8]) {
        if !self.callbacks.are_wanted() {
            return self.screen.change(|screen| screen.process(bytes)).unwrap();
        }
        let mut rest = bytes;
        while !rest.is_empty() {
            let (piece, left) = rest.split_at(self.stops.next(rest));
            rest = left;
            // A callback may have put another screen into its place.
            self.screen.tell(true, !self.are_rows_unread);
            self.screen.change(|screen| screen.process(piece)).unwrap();
            if let Some(command) = self.stops.command() {
                osc::call(&mut self.callbacks, &mut self.screen, &command);
            }
            self.call_back();
        }
    }

    /// Calls the callbacks for the requests that wait. Operating system commands are read whole elsewhere.
    fn call_back(&mut self) {
        let mut requests = std::mem::take(&mut self.requests);
        requests.extend(self.screen.inner().requests());
        for request in &requests {
            self.call(request);
        }
        requests.clear();
        self.requests = requests;
    }

    fn call(&mut self, request: &Request) {
        let (callbacks, screen) = (&mut self.callbacks, &mut self.screen);
        match request {
            Request::Bell => callbacks.audible_bell(screen),
            Request::VisualBell => callbacks.visual_bell(screen),
            Request::Resize(rows, cols) => callbacks.resize(screen, (*rows, *cols)),
            Request::UnhandledChar(c) => callbacks.unhandled_char(screen, *c),
            Request::UnhandledControl(control) => callbacks.unhandled_control(screen, *control),
            Request::UnhandledEscape {
                intermediates,
                last,
            } => {
                let (first, second) = first_two(intermediates);
                callbacks.unhandled_escape(screen, first, second, *last);
            }
            Request::UnhandledCsi {
                intermediates,
                params,
                last,
            } => {
                let (first, second) = first_two(intermediates);
                let params: Vec<&[u16]> = params.iter().map(Vec::as_slice).collect();
                callbacks.unhandled_csi(screen, first, second, &params, *last);
            }
            Request::Row {
                text,
                wrapped,
                alternate,
            } => {
                let unread_by = std::cell::Cell::new("");
                callbacks.on_scroll(RowContents::new(text, *wrapped, &unread_by), *alternate);
                self.are_rows_unread |= unread_by.get() == std::any::type_name::<CB>();
            }
            _ => {}
        }
    }

    /// Gives the screen another size. Rows that it pushes out are reported ([`Callbacks::on_scroll`]).
    pub fn set_size(&mut self, rows: NonZeroU16, cols: NonZeroU16) {
        if !self.callbacks.are_wanted() {
            return self.screen.set_size(rows, cols);
        }
        self.screen.tell(true, !self.are_rows_unread);
        self.screen.resized(rows, cols);
        self.call_back();
    }

    /// The screen.
    #[must_use]
    pub fn screen(&self) -> &Screen {
        &self.screen
    }

    /// The screen, to be changed.
    #[must_use]
    pub fn screen_mut(&mut self) -> &mut Screen {
        &mut self.screen
    }

    /// The callbacks.
    pub fn callbacks(&self) -> &CB {
        &self.callbacks
    }

    /// The callbacks, to be changed.
    pub fn callbacks_mut(&mut self) -> &mut CB {
        &mut self.callbacks
    }

    /// Both.
    pub fn screen_and_callbacks_mut(&mut self) -> (&mut Screen, &mut CB) {
        (&mut self.screen, &mut self.callbacks)
    }
}

fn first_two(intermediates: &[u8]) -> (Option<u8>, Option<u8>) {
    let mut bytes = intermediates.iter().copied();
    (bytes.next(), bytes.next())
}

impl Default for Parser {
    /// 24 rows of 80 columns, and none that scrolls off is kept.
    fn default() -> Self {
        Self::new(Self::DEFAULT_ROWS, Self::DEFAULT_COLS, 0)
    }
}

impl<CB: Callbacks> io::Write for Parser<CB> {
    fn write(&mut self, bytes: &[u8]) -> io::Result<usize> {
        self.process(bytes);
        Ok(bytes.len())
    }

    fn flush(&mut self) -> io::Result<()> {
        Ok(())
    }
}
