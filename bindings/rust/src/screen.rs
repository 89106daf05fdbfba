//! Screens.
use crate::cell::Drawing;
use crate::error::Result;
use crate::object::{reading_calls, Functions, Object};
use crate::raw::{self, RawDrawing, RawRequest, Word};
use std::io;
use std::num::NonZeroU16;

static FUNCTIONS: Functions = Functions {
    close: raw::jeihpal_screen_close,
    look: raw::jeihpal_screen_look,
    cell: raw::jeihpal_screen_cell,
    cells: raw::jeihpal_screen_row_cells,
    row_text: raw::jeihpal_screen_row_text,
};

/// A terminal's screen made of a program's bytes, with rows that scroll off, and escape sequences that redraw it.
///
/// What is written to it as [`io::Write`] it processes. It may move to another thread, and
/// [`try_clone`](Screen::try_clone) makes a copy.
///
/// ```
/// use std::num::NonZeroU16;
///
/// let [rows, cols] = [24, 80].map(|n| NonZeroU16::new(n).unwrap());
/// let mut screen = jeihpal::Screen::new(rows, cols, 0)?;
/// screen.process(b"this text is \x1b[31mRED\x1b[m")?;
/// screen.mark()?;
/// screen.process(b"\x1b[3D\x1b[32mGREEN")?;
/// assert_eq!(screen.contents()?, "this text is GREEN");
/// assert_eq!(screen.difference()?, "\x1b[1;14H\x1b[32mGREEN");
/// # Ok::<(), jeihpal::Error>(())
/// ```
pub struct Screen {
    object: Object,
    dropped: usize,
    /// Room for the texts of requests.
    room: Vec<u8>,
    most_cells: Option<usize>,
}

// SAFETY: nothing that a screen's word holds is shared with another object or tied to a thread, so the library lets it
// go to another thread (jeihpal.h). `&mut` and the missing `Sync` keep to one call at a time.
unsafe impl Send for Screen {}

impl Screen {
    /// A blank screen of this size that keeps at most `scrollback` rows that scroll off.
    pub fn new(rows: NonZeroU16, cols: NonZeroU16, scrollback: usize) -> Result<Screen> {
        // SAFETY, here and below: the word is as the last call left it, and what is lent is lent for the call.
        Screen::filled(|word| unsafe {
            raw::jeihpal_screen_new(word, rows.get(), cols.get(), scrollback)
        })
    }

    /// The same for sizes that strangers choose: one of more than `most_cells` cells is refused, here and in
    /// [`resize`](Self::resize), also of a copy, by [`Error::TooLarge`](crate::Error::TooLarge). Kept rows don't count.
    pub fn new_within(
        rows: NonZeroU16,
        cols: NonZeroU16,
        scrollback: usize,
        most_cells: usize,
    ) -> Result<Screen> {
        let (rows, cols) = (rows.get(), cols.get());
        let mut screen = Screen::filled(|word| unsafe {
            raw::jeihpal_screen_new_within(word, rows, cols, scrollback, most_cells)
        })?;
        screen.most_cells = Some(most_cells);
        Ok(screen)
    }

    /// The object that a call puts into a word.
    pub(crate) fn filled(fill: impl FnOnce(*mut Word) -> i32) -> Result<Screen> {
        Ok(Screen {
            object: Object::new(&FUNCTIONS, fill)?,
            dropped: 0,
            room: Vec::new(),
            most_cells: None,
        })
    }

    /// The object by which the library is called.
    #[inline]
    pub(crate) fn object(&self) -> &Object {
        &self.object
    }

    /// A copy that shows the same and keeps the same rows. It is without a mark, requests, and what was read of an
    /// unfinished character or sequence.
    pub fn try_clone(&self) -> Result<Screen> {
        let from = self.object.word();
        // SAFETY: the new word is null, and isn't the word of this screen.
        let mut copy = Screen::filled(|word| unsafe { raw::jeihpal_screen_clone(word, from) })?;
        copy.most_cells = self.most_cells;
        Ok(copy)
    }

    /// A copy that draws on copies of the rows that are shown, kept ones too, and keeps none. Its redraws and
    /// differences lead a terminal to what this screen shows, whether kept rows are shown or not. If a kept row is
    /// wider than the screen, a wide character that the right edge cuts is blank.
    pub fn try_clone_visible(&self) -> Result<Screen> {
        let from = self.object.word();
        // SAFETY: the new word is null, and isn't the word of this screen.
        Screen::filled(|word| unsafe { raw::jeihpal_screen_clone_visible(word, from) })
    }

    /// Reads the program's next bytes. They may be cut anywhere. After [`Error::Memory`] the screen has failed: it can
    /// still be read, but no bytes change it any more.
    ///
    /// [`Error::Memory`]: crate::Error::Memory
    pub fn process(&mut self, bytes: &[u8]) -> Result<()> {
        self.object.give(raw::jeihpal_screen_process, bytes)
    }

    /// Gives the screen another size, or the same, ends the program's synchronized update, and drops the mark.
    pub fn resize(&mut self, rows: NonZeroU16, cols: NonZeroU16) -> Result<()> {
        let (rows, cols, most_cells) = (rows.get(), cols.get(), self.most_cells);
        self.object.act(|word| unsafe {
            match most_cells {
                Some(most) => raw::jeihpal_screen_resize_within(word, rows, cols, most),
                None => raw::jeihpal_screen_resize(word, rows, cols),
            }
        })
    }

    /// Shows the newest `rows` kept rows above the others, or all if there are fewer. Redraws and differences lead a
    /// terminal to the picture only if no kept row is shown, or from copies that
    /// [`try_clone_visible`](Screen::try_clone_visible) makes.
    pub fn scroll(&mut self, rows: usize) -> Result<()> {
        self.object
            .act(|word| unsafe { raw::jeihpal_screen_scroll(word, rows) })
    }

    /// Removes the kept rows of what is shown.
    pub fn clear_scrollback(&mut self) -> Result<()> {
        self.object
            .act(|word| unsafe { raw::jeihpal_screen_clear_scrollback(word) })
    }

    reading_calls!();

    /// How the next character is drawn.
    pub fn drawing(&self) -> Drawing {
        let mut drawing = RawDrawing::default();
        self.read_drawing(&mut drawing);
        Drawing::of(&drawing)
    }

    /// Reads it into its place.
    pub(crate) fn read_drawing(&self, drawing: &mut RawDrawing) {
        self.object
            .call(|word| unsafe { raw::jeihpal_screen_drawing(word, drawing) })
            .expect("it is never refused");
    }

    /// The text of the rows that are shown.
    pub fn contents(&self) -> Result<String> {
        self.object.whole_text(raw::jeihpal_screen_contents)
    }

    /// The text from one place up to another, each a row and a column.
    pub fn contents_between(&self, start: (u16, u16), end: (u16, u16)) -> Result<String> {
        self.object.text(|word, to, room, length| unsafe {
            raw::jeihpal_screen_contents_between(
                word, start.0, start.1, end.0, end.1, to, room, length,
            )
        })
    }

    /// The escape sequences that take a terminal of this size to the screen's picture, whatever it showed before. If a
    /// kept row is shown, they may lead to another picture ([`scroll`](Screen::scroll)).
    pub fn contents_formatted(&self) -> Result<String> {
        self.object
            .whole_text(raw::jeihpal_screen_contents_formatted)
    }

    /// The escape sequences that take a fresh terminal of this size to the screen's picture, modes and cursor style.
    /// For kept rows see [`contents_formatted`](Screen::contents_formatted).
    pub fn state_formatted(&self) -> Result<String> {
        self.object.whole_text(raw::jeihpal_screen_state)
    }

    /// The rows as text with its attributes alone: nothing but SGR and newlines between the characters.
    pub fn contents_formatted_basic(&self) -> Result<String> {
        self.object
            .whole_text(raw::jeihpal_screen_contents_formatted_basic)
    }

    /// The escape sequences that set the modes and the cursor's style.
    pub fn input_mode_formatted(&self) -> Result<String> {
        self.object
            .whole_text(raw::jeihpal_screen_input_mode_formatted)
    }

    /// The escape sequences that set how the next character is drawn.
    pub fn attributes_formatted(&self) -> Result<String> {
        self.object
            .whole_text(raw::jeihpal_screen_attributes_formatted)
    }

    /// The escape sequences that bring a terminal's cursor to the screen's, and hide or show it. If a kept row is
    /// shown, they may print a character over another one.
    pub fn cursor_state_formatted(&self) -> Result<String> {
        self.object
            .whole_text(raw::jeihpal_screen_cursor_state_formatted)
    }

    /// The escape sequences that draw each row on a row of default cells: `width` columns from column `start` on.
    pub fn rows_formatted(&self, start: u16, width: u16) -> Result<Vec<String>> {
        self.texts(|word, to, room, length, lengths, most, rows| unsafe {
            raw::jeihpal_screen_rows_formatted(
                word, start, width, to, room, length, lengths, most, rows,
            )
        })
    }

    /// The escape sequences that take a terminal from what an earlier screen shows to what this one shows. If either
    /// shows a kept row, they may lead to another picture.
    pub fn state_diff(&self, earlier: &Screen) -> Result<String> {
        self.object
            .text_from(&earlier.object, raw::jeihpal_screen_state_diff)
    }

    /// As [`state_diff`](Screen::state_diff), for the pictures alone.
    pub fn contents_diff(&self, earlier: &Screen) -> Result<String> {
        self.object
            .text_from(&earlier.object, raw::jeihpal_screen_contents_diff)
    }

    /// As [`state_diff`](Screen::state_diff), for the modes and the cursor's style alone.
    pub fn input_mode_diff(&self, earlier: &Screen) -> Result<String> {
        self.object
            .text_from(&earlier.object, raw::jeihpal_screen_input_mode_diff)
    }

    /// The escape sequences that draw each row over the one that an earlier screen shows there.
    pub fn rows_diff(&self, earlier: &Screen, start: u16, width: u16) -> Result<Vec<String>> {
        if std::ptr::eq(self, earlier) {
            return Ok(vec![String::new(); usize::from(self.look().rows)]);
        }
        let from = earlier.object.word();
        self.texts(|word, to, room, length, lengths, most, rows| unsafe {
            raw::jeihpal_screen_rows_diff(
                word, from, start, width, to, room, length, lengths, most, rows,
            )
        })
    }

    /// The texts of rows. The function copies them one after another, with their lengths.
    fn texts(
        &self,
        function: impl Fn(*mut Word, *mut u8, usize, *mut usize, *mut usize, usize, *mut usize) -> i32,
    ) -> Result<Vec<String>> {
        let mut lengths = vec![0; usize::from(self.look().rows)];
        let mut count = 0;
        let all = self.object.text(|word, to, room, length| {
            function(
                word,
                to,
                room,
                length,
                lengths.as_mut_ptr(),
                lengths.len(),
                &mut count,
            )
        })?;
        let mut rest = all.as_str();
        let texts = lengths[..count].iter().map(|length| {
            let (row, left) = rest.split_at(*length);
            rest = left;
            row.to_string()
        });
        Ok(texts.collect())
    }

    /// Marks the screen as it is now: keeps a copy of it, in place of an earlier mark.
    pub fn mark(&mut self) -> Result<()> {
        self.object
            .act(|word| unsafe { raw::jeihpal_screen_mark(word) })
    }

    /// The escape sequences that take a terminal from what the mark shows to what the screen shows. If either shows a
    /// kept row, they may lead to another picture. Without a mark they are those of
    /// [`state_formatted`](Screen::state_formatted).
    pub fn difference(&self) -> Result<String> {
        self.object.whole_text(raw::jeihpal_screen_difference)
    }

    /// Sets whether [`requests`](Screen::requests) from now on gives what the screen doesn't know, and whether it gives
    /// rows that leave the screen for good. For a new screen and a clone it gives neither.
    pub fn tell(&mut self, unknown: bool, rows: bool) {
        self.object
            .act(|word| unsafe { raw::jeihpal_screen_tell(word, unknown.into(), rows.into()) })
            .expect("it is never refused");
    }

    /// Takes what the program has asked of its terminal out of the screen's queue, oldest first. The queue holds up to
    /// 256 requests, each with a text of up to 1,021 bytes; others are dropped. Rows wait as long as there is memory,
    /// and count among the 256.
    ///
    /// ```
    /// # let size = std::num::NonZeroU16::new(9).unwrap();
    /// # let mut screen = jeihpal::Screen::new(size, size, 0)?;
    /// screen.process(b"\x07\x1b]2;make\x07")?;
    /// let requests: Vec<_> = screen.requests().collect();
    /// assert_eq!(requests, [jeihpal::Request::Bell, jeihpal::Request::Title(b"make".to_vec())]);
    /// # Ok::<(), jeihpal::Error>(())
    /// ```
    pub fn requests(&mut self) -> impl Iterator<Item = Request> + '_ {
        std::iter::from_fn(move || self.next_request())
    }

    /// How many requests had been dropped when [`requests`](Screen::requests) last read the queue.
    pub fn dropped_requests(&self) -> usize {
        self.dropped
    }

    fn next_request(&mut self) -> Option<Request> {
        let (mut raw, room) = (RawRequest::default(), &mut self.room);
        if room.is_empty() {
            room.resize(FIRST_ROOM, 0);
        }
        loop {
            self.object
                .call(|word| unsafe {
                    raw::jeihpal_screen_request(word, room.as_mut_ptr(), room.len(), &mut raw)
                })
                .expect("it is never refused");
            self.dropped = raw.dropped;
            // A request whose text is longer than the room stays in the queue.
            if raw.length <= room.len() {
                return Request::of(&raw, &room[..raw.length]);
            }
            room.resize(raw.length, 0);
        }
    }
}

impl io::Write for Screen {
    fn write(&mut self, bytes: &[u8]) -> io::Result<usize> {
        self.process(bytes)?;
        Ok(bytes.len())
    }

    fn flush(&mut self) -> io::Result<()> {
        Ok(())
    }
}

/// The texts of most requests have fewer bytes.
const FIRST_ROOM: usize = 128;

/// What a program asks of its terminal beyond drawing. Texts are as it wrote them, and needn't be UTF-8.
///
/// Those from `UnhandledChar` on are queued only if [`Screen::tell`] asks for them.
#[derive(Clone, Debug, Eq, Hash, PartialEq)]
#[non_exhaustive]
pub enum Request {
    /// BEL.
    Bell,
    /// `ESC g`.
    VisualBell,
    /// This many rows and columns, which may be 0 (XTWINOPS 8).
    Resize(u16, u16),
    /// The name of the window's icon (OSC 0 and 1).
    IconName(Vec<u8>),
    /// The window's title (OSC 0 and 2).
    Title(Vec<u8>),
    /// Data in base64 for clipboards (OSC 52).
    Copy {
        /// The clipboards' letters.
        clipboards: Vec<u8>,
        /// The data, in base64.
        data: Vec<u8>,
    },
    /// Clipboards whose data is asked for, by their letters (OSC 52 with `?`).
    Paste(Vec<u8>),
    /// U+FFFD, which malformed bytes give too, or a control from U+0080 to U+009F.
    UnhandledChar(char),
    /// A control that does nothing.
    UnhandledControl(u8),
    /// An escape sequence that does nothing.
    UnhandledEscape {
        /// Its first two intermediates.
        intermediates: Vec<u8>,
        /// Its final byte.
        last: u8,
    },
    /// A control sequence that does nothing, or a group of parameters in it that does nothing.
    UnhandledCsi {
        /// Its first two intermediates, a private marker among them.
        intermediates: Vec<u8>,
        /// Its parameters in groups: `;` is between groups, and `:` between the numbers of a group.
        params: Vec<Vec<u16>>,
        /// Its final byte.
        last: char,
    },
    /// An operating system command that does nothing: its pieces, with `;` between them.
    UnhandledOsc(Vec<u8>),
    /// A row left the screen for good: it isn't kept, or was pushed out of those that are.
    Row {
        /// Its text with its attributes, as [`Screen::contents_formatted_basic`] gives it for one row.
        text: String,
        /// Its text continues in the next row.
        wrapped: bool,
        /// It was a row of the alternate screen.
        alternate: bool,
    },
    /// Another request, by its number, which this crate doesn't know.
    Other(u8),
}

impl Request {
    fn of(raw: &RawRequest, text: &[u8]) -> Option<Request> {
        let (letters, rest) = text.split_at(raw.letters.min(text.len()));
        match raw.kind {
            0 => None,
            1 => Some(Request::Bell),
            2 => Some(Request::VisualBell),
            3 => Some(Request::Resize(raw.rows, raw.cols)),
            4 => Some(Request::IconName(rest.to_vec())),
            5 => Some(Request::Title(rest.to_vec())),
            6 => Some(Request::Copy {
                clipboards: letters.to_vec(),
                data: rest.to_vec(),
            }),
            7 => Some(Request::Paste(letters.to_vec())),
            kind => Some(Request::told(kind, letters, rest)),
        }
    }

    /// One of those that are queued only if [`Screen::tell`] asks for them.
    fn told(kind: u8, intermediates: &[u8], rest: &[u8]) -> Request {
        let text = || String::from_utf8_lossy(rest).into_owned();
        match kind {
            8 => Request::UnhandledChar(text().chars().next().unwrap_or('\u{fffd}')),
            9 => Request::UnhandledControl(rest.first().copied().unwrap_or(0)),
            10 => Request::UnhandledEscape {
                intermediates: intermediates.to_vec(),
                last: rest.first().copied().unwrap_or(0),
            },
            11 => {
                let mut params = text();
                let last = params.pop().unwrap_or('\0');
                Request::UnhandledCsi {
                    intermediates: intermediates.to_vec(),
                    params: groups(&params),
                    last,
                }
            }
            12 => Request::UnhandledOsc(rest.to_vec()),
            13 | 14 => {
                let text = text();
                let ended = text.strip_suffix('\n');
                Request::Row {
                    text: ended.unwrap_or(&text).to_string(),
                    wrapped: ended.is_none(),
                    alternate: kind == 14,
                }
            }
            kind => Request::Other(kind),
        }
    }
}

/// The groups of a control sequence's parameters.
fn groups(params: &str) -> Vec<Vec<u16>> {
    if params.is_empty() {
        return Vec::new();
    }
    let numbers = |group: &str| group.split(':').map(|it| it.parse().unwrap_or(0)).collect();
    params.split(';').map(numbers).collect()
}
