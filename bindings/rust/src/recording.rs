//! Recordings.
use crate::error::{answer, Result};
use crate::object::Owned;
use crate::raw::{self, RawEvent, RawRecorded, Word};
use crate::screen::Screen;
use std::num::NonZeroU16;

/// The code that the library returns for an event that isn't there.
const NO_EVENT: i32 = -12;

/// How many colours a recording may have of its own.
const COLORS: usize = 18;

/// The form in which a recording was stored.
#[derive(Clone, Copy, Debug, Eq, Hash, PartialEq)]
#[non_exhaustive]
pub enum Kind {
    /// An asciicast, version 1, 2 or 3.
    Asciicast,
    /// A typescript of `script(1)`, with the file of its times.
    Typescript,
    /// A ttyrec.
    Ttyrec,
    /// The bytes alone: one event at the time 0.
    Raw,
    /// Another kind, by its number, which this crate doesn't know.
    Other(u8),
}

/// The first place at which a recording stops making sense.
#[derive(Clone, Copy, Debug, Eq, Hash, PartialEq)]
#[non_exhaustive]
pub enum Fault {
    /// This line of an asciicast, counted from 1, isn't an event.
    Line(u64),
    /// No whole frame of a ttyrec begins at this byte, counted from 0.
    Byte(u64),
    /// This line of a file of times, counted from 1, isn't a step, or takes more bytes than are left.
    Step(u64),
    /// Another fault, by its number, which this crate doesn't know, and its place.
    Other(u8, u64),
}

/// What happens at a moment of a recording.
#[derive(Clone, Debug, Eq, Hash, PartialEq)]
#[non_exhaustive]
pub enum Change {
    /// The program writes these bytes, which needn't be UTF-8, and may end within a character.
    Output(Vec<u8>),
    /// The terminal gets this many rows and columns.
    Resize(NonZeroU16, NonZeroU16),
    /// Nothing: this names the moment.
    Marker(String),
    /// Another event, by its number, which this crate doesn't know.
    Other(u8),
}

/// An event of a recording.
#[derive(Clone, Debug, Eq, Hash, PartialEq)]
pub struct Event {
    /// Microseconds since the beginning, never less than those of the event before.
    pub time: u64,
    /// What happens then.
    pub change: Change,
}

/// A recording: what a program wrote to its terminal, and when, up to the first fault.
///
/// ```
/// use std::num::NonZeroU16;
/// use jeihpal::{Change, Recording, Screen};
///
/// let cast = b"{\"version\": 2, \"width\": 80, \"height\": 24}\n[0.5, \"o\", \"hello\"]\n";
/// let recording = Recording::new(cast)?;
/// assert_eq!(recording.screen_at(499_999)?.contents()?, "");
/// assert_eq!(recording.screen_at(500_000)?.contents()?, "hello");
/// let (rows, cols) = recording.size().unwrap();
/// let mut screen = Screen::new(rows, cols, 0)?;
/// for event in recording.events() {
///     match event?.change {
///         Change::Output(bytes) => screen.process(&bytes)?,
///         Change::Resize(rows, cols) => screen.resize(rows, cols)?,
///         _ => {}
///     }
/// }
/// assert_eq!(screen.contents()?, "hello");
/// # Ok::<(), jeihpal::Error>(())
/// ```
pub struct Recording {
    owned: Owned,
    look: RawRecorded,
}

// SAFETY: nothing that a recording's word holds is shared with another object or tied to a thread, so the library lets
// it go to another thread (jeihpal.h). `&mut` and the missing `Sync` keep to one call at a time.
unsafe impl Send for Recording {}

impl Recording {
    /// Reads a recording in the kind that its first bytes say. A typescript without its file of times is a raw one.
    pub fn new(bytes: &[u8]) -> Result<Recording> {
        // SAFETY, here and below: the word is as the last call left it, and what is lent is lent for the call.
        Recording::filled(|word| unsafe {
            raw::jeihpal_recording_open(word, bytes.as_ptr(), bytes.len())
        })
    }

    /// Reads a typescript: what a program wrote, and the file of its times.
    pub fn of_script(output: &[u8], timing: &[u8]) -> Result<Recording> {
        let (bytes, times) = (
            (output.as_ptr(), output.len()),
            (timing.as_ptr(), timing.len()),
        );
        Recording::filled(|word| unsafe {
            raw::jeihpal_recording_open_script(word, bytes.0, bytes.1, times.0, times.1)
        })
    }

    fn filled(fill: impl FnOnce(*mut Word) -> i32) -> Result<Recording> {
        let owned = Owned::new(raw::jeihpal_recording_close, fill)?;
        let mut look = RawRecorded::default();
        owned.act(|word| unsafe { raw::jeihpal_recording_look(word, &mut look) })?;
        Ok(Recording { owned, look })
    }

    /// The form in which it was stored.
    pub fn kind(&self) -> Kind {
        match self.look.kind {
            1 => Kind::Asciicast,
            2 => Kind::Typescript,
            3 => Kind::Ttyrec,
            4 => Kind::Raw,
            kind => Kind::Other(kind),
        }
    }

    /// How many rows and columns there are at first, if the recording says it.
    pub fn size(&self) -> Option<(NonZeroU16, NonZeroU16)> {
        NonZeroU16::new(self.look.rows).zip(NonZeroU16::new(self.look.cols))
    }

    /// Microseconds from the beginning to the last event, even if that doesn't concern a screen.
    pub fn length(&self) -> u64 {
        self.look.length
    }

    /// The first place at which it stops making sense, if it does. What comes before it is read.
    pub fn fault(&self) -> Option<Fault> {
        let place = self.look.place;
        match self.look.fault {
            0 => None,
            1 => Some(Fault::Line(place)),
            2 => Some(Fault::Byte(place)),
            3 => Some(Fault::Step(place)),
            fault => Some(Fault::Other(fault, place)),
        }
    }

    /// How many events there are.
    pub fn event_count(&self) -> usize {
        self.look.events
    }

    /// How many cells its largest size has, at first or later; 0 if it says no size. Whoever made the recording chose
    /// it, and a screen takes memory for it: check it before [`screen_at`](Recording::screen_at) of a stranger's
    /// recording.
    pub fn most_cells(&self) -> usize {
        let cells = |rows: u16, cols: u16| usize::from(rows) * usize::from(cols);
        let later = (0..self.look.events).filter_map(|index| self.raw_event(index).ok().flatten());
        let later = later.map(|event| cells(event.rows, event.cols)).max();
        cells(self.look.rows, self.look.cols).max(later.unwrap_or(0))
    }

    fn raw_event(&self, index: usize) -> Result<Option<RawEvent>> {
        let mut event = RawEvent::default();
        let code = unsafe { raw::jeihpal_recording_event(self.owned.word(), index, &mut event) };
        if code == NO_EVENT {
            return Ok(None);
        }
        answer(code)?;
        Ok(Some(event))
    }

    /// An event, counted from 0; nothing if there are fewer.
    pub fn event(&self, index: usize) -> Result<Option<Event>> {
        let Some(event) = self.raw_event(index)? else {
            return Ok(None);
        };
        let text = self.owned.bytes(|word, to, room, length| unsafe {
            raw::jeihpal_recording_event_text(word, index, to, room, length)
        })?;
        Ok(Some(Event {
            time: event.time,
            change: Change::of(&event, text),
        }))
    }

    /// The events, in order.
    pub fn events(&self) -> impl Iterator<Item = Result<Event>> + '_ {
        (0..self.look.events).filter_map(|index| self.event(index).transpose())
    }

    /// A new screen as it is after all events up to a time, in microseconds. It begins in the size that the recording
    /// says, or else in 24 rows of 80 columns. It has no requests.
    pub fn screen_at(&self, time: u64) -> Result<Screen> {
        let (rows, cols) = self.size().unwrap_or_else(usual_size);
        let from = self.owned.word();
        Screen::filled(|word| unsafe {
            raw::jeihpal_recording_screen(from, word, rows.get(), cols.get(), 0, time)
        })
    }

    /// The colours that an asciicast has of its own, each as 0xRRGGBB: that of texts, that of backgrounds, and the
    /// first sixteen.
    pub fn colors(&self) -> Option<[u32; COLORS]> {
        let (mut colors, mut count) = ([0; COLORS], 0);
        self.owned
            .call(|word| unsafe {
                raw::jeihpal_recording_colors(word, colors.as_mut_ptr(), COLORS, &mut count)
            })
            .expect("it is never refused");
        (count == COLORS).then_some(colors)
    }
}

/// The rows and columns of a recording that says no size.
fn usual_size() -> (NonZeroU16, NonZeroU16) {
    let side = |number| NonZeroU16::new(number).expect("it isn't 0");
    (side(24), side(80))
}

impl Change {
    fn of(event: &RawEvent, text: Vec<u8>) -> Change {
        let size = NonZeroU16::new(event.rows).zip(NonZeroU16::new(event.cols));
        match (event.kind, size) {
            (1, _) => Change::Output(text),
            (2, Some((rows, cols))) => Change::Resize(rows, cols),
            (3, _) => Change::Marker(String::from_utf8_lossy(&text).into_owned()),
            (kind, _) => Change::Other(kind),
        }
    }
}
