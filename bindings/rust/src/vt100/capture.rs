//! Captures: what a terminal showed, as text with its attributes. A capture holds no control sequences but SGR, and no
//! control characters but newlines.
use crate::cell::{Cell, Drawing};
use crate::sgr::{self, Runs};
use std::cell::Cell as StdCell;
use std::fmt::{self, Write};
use std::num::NonZeroU16;

/// Which rows [`write_contents_formatted_basic`](super::Screen::write_contents_formatted_basic) writes.
#[derive(Debug)]
pub enum BasicFormattedCaptureRange<'a> {
    /// All rows: those that have scrolled off and are kept, and those of the screen. They go on from this state.
    Full(&'a mut BasicFormattedCaptureState),
    /// The rows that are shown, as a capture of its own.
    Visible,
}

/// Where a capture has got to: the attributes that are set, and whether a newline comes before the next row.
#[derive(Clone, Debug, Default)]
pub struct BasicFormattedCaptureState {
    attrs: Drawing,
    newline_pending: bool,
}

impl BasicFormattedCaptureState {
    /// The state before a capture.
    #[must_use]
    pub fn new() -> Self {
        Self::default()
    }

    fn begin_row(&mut self, writer: &mut impl Write, wrapped: bool) -> fmt::Result {
        if std::mem::replace(&mut self.newline_pending, !wrapped) {
            writer.write_char('\n')?;
        }
        Ok(())
    }

    fn set_attrs(&mut self, writer: &mut impl Write, attrs: Drawing) -> fmt::Result {
        sgr::write_difference(writer, &self.attrs, &attrs)?;
        self.attrs = attrs;
        Ok(())
    }
}

/// A row that leaves the screen for good, of [`on_scroll`](super::Callbacks::on_scroll).
#[derive(Clone, Copy, Debug)]
pub struct RowContents<'a> {
    /// The row as a capture of its own.
    text: &'a str,
    wrapped: bool,
    /// The type that doesn't override the callback.
    unread_by: &'a StdCell<&'static str>,
}

impl<'a> RowContents<'a> {
    pub(crate) fn new(text: &'a str, wrapped: bool, unread_by: &'a StdCell<&'static str>) -> Self {
        RowContents {
            text,
            wrapped,
            unread_by,
        }
    }

    /// Reports that a type doesn't override the callback.
    #[doc(hidden)]
    pub fn is_unread_by(&self, name: &'static str) {
        self.unread_by.set(name);
    }

    /// Writes the row as the next part of a capture that has got to `state`. The only error is the writer's.
    ///
    /// Cells at the row's beginning that show nothing count as spaces in default attributes.
    pub fn write_formatted_basic(
        &self,
        writer: &mut impl Write,
        state: &mut BasicFormattedCaptureState,
    ) -> fmt::Result {
        state.begin_row(writer, self.wrapped)?;
        for (attrs, text) in Runs::new(self.text) {
            state.set_attrs(writer, attrs)?;
            writer.write_str(text)?;
        }
        Ok(())
    }
}

/// Writes a row of cells as the next part of a capture.
pub(super) fn write_cells(
    writer: &mut impl Write,
    cells: &[Cell],
    wrapped: bool,
    state: &mut BasicFormattedCaptureState,
) -> fmt::Result {
    state.begin_row(writer, wrapped)?;
    let empty = Cell::default();
    let shown = cells.iter().filter(|cell| !cell.is_wide_continuation());
    let mut spaces = 0;
    for cell in shown {
        if *cell == empty {
            spaces += 1;
            continue;
        }
        for _ in 0..std::mem::take(&mut spaces) {
            writer.write_char(' ')?;
        }
        state.set_attrs(writer, cell.drawing())?;
        writer.write_str(if cell.has_contents() {
            cell.contents()
        } else {
            " "
        })?;
    }
    Ok(())
}

/// The pieces of a text between its SGR sequences.
#[derive(Clone, Debug)]
pub struct BasicFormattedToPlain<'a> {
    indexed: BasicFormattedToPlainIndexed<'a>,
}

impl<'a> Iterator for BasicFormattedToPlain<'a> {
    type Item = &'a str;

    fn next(&mut self) -> Option<&'a str> {
        Some(self.indexed.next()?.1)
    }
}

impl std::iter::FusedIterator for BasicFormattedToPlain<'_> {}

/// The same, each with the byte at which it begins.
#[derive(Clone, Debug)]
pub struct BasicFormattedToPlainIndexed<'a> {
    capture: &'a str,
    at: usize,
}

impl<'a> Iterator for BasicFormattedToPlainIndexed<'a> {
    type Item = (usize, &'a str);

    fn next(&mut self) -> Option<(usize, &'a str)> {
        while self.at < self.capture.len() {
            let begin = self.at;
            let found =
                |from: usize, mark| self.capture[from..].find(mark).map(|count| from + count);
            let end = found(begin, '\x1b').unwrap_or(self.capture.len());
            self.at = found(end, 'm').map_or(self.capture.len(), |last| last + 1);
            if begin < end {
                return Some((begin, &self.capture[begin..end]));
            }
        }
        None
    }
}

impl std::iter::FusedIterator for BasicFormattedToPlainIndexed<'_> {}

/// The text without its SGR sequences, in pieces.
#[must_use]
pub fn basic_formatted_to_plain(capture: &str) -> BasicFormattedToPlain<'_> {
    BasicFormattedToPlain {
        indexed: basic_formatted_to_plain_indexed(capture),
    }
}

/// The same, each piece with the byte of the text at which it begins.
///
/// ```
/// use jeihpal::vt100::capture::basic_formatted_to_plain_indexed;
///
/// let pieces: Vec<_> = basic_formatted_to_plain_indexed("hello\x1b[31;1mworld").collect();
/// assert_eq!(pieces, [(0, "hello"), (12, "world")]);
/// ```
#[must_use]
pub fn basic_formatted_to_plain_indexed(capture: &str) -> BasicFormattedToPlainIndexed<'_> {
    BasicFormattedToPlainIndexed { capture, at: 0 }
}

/// The rows of a capture.
pub struct BasicFormattedRows<'a> {
    /// The rest of it; `None` after its last row.
    capture: Option<&'a str>,
    width: usize,
    /// A screen that is used to measure the width of characters beyond ASCII.
    ruler: Option<crate::Screen>,
}

impl BasicFormattedRows<'_> {
    /// How many columns a character takes.
    fn columns(&mut self, c: char) -> usize {
        if c.is_ascii() || c.is_control() || c == '\u{fffd}' {
            return 1;
        }
        let ruler = self.ruler.get_or_insert_with(|| {
            let size = |n| NonZeroU16::new(n).expect("a screen has rows and columns");
            crate::Screen::new(size(1), size(4), 0).unwrap()
        });
        let mut text = [b'\r', 0, 0, 0, 0];
        let length = c.encode_utf8(&mut text[1..]).len();
        ruler.process(&text[..=length]).unwrap();
        usize::from(ruler.look().cursor.1)
    }

    /// Where the first row of a text ends, and where the next begins, if there is one.
    fn cut(&mut self, capture: &str) -> Option<(usize, usize)> {
        let (mut inside, mut taken) = (false, 0);
        for (at, c) in capture.char_indices() {
            match c {
                _ if inside => inside = c != 'm',
                '\x1b' => inside = true,
                '\n' => return Some((at, at + 1)),
                _ => {
                    let columns = self.columns(c);
                    if columns > 0 && taken > 0 && taken + columns > self.width {
                        return Some((at, at));
                    }
                    taken += columns;
                }
            }
        }
        None
    }
}

impl<'a> Iterator for BasicFormattedRows<'a> {
    type Item = &'a str;

    fn next(&mut self) -> Option<&'a str> {
        let capture = self.capture?;
        let Some((end, next)) = self.cut(capture) else {
            return self.capture.take();
        };
        self.capture = Some(&capture[next..]);
        Some(&capture[..end])
    }
}

impl std::iter::FusedIterator for BasicFormattedRows<'_> {}

impl fmt::Debug for BasicFormattedRows<'_> {
    fn fmt(&self, f: &mut fmt::Formatter<'_>) -> fmt::Result {
        f.debug_struct("BasicFormattedRows")
            .field("capture", &self.capture)
            .field("width", &self.width)
            .finish_non_exhaustive()
    }
}

/// The rows of a capture, for a screen of this width: cut at newlines, and before a character that would pass the
/// width. A sequence belongs to the row in which it comes.
///
/// ```
/// use jeihpal::vt100::capture::basic_formatted_rows;
///
/// let rows: Vec<_> = basic_formatted_rows("ab\x1b[31mcd\ne", 3).collect();
/// assert_eq!(rows, ["ab\x1b[31mc", "d", "e"]);
/// ```
#[must_use]
pub fn basic_formatted_rows(capture: &str, screen_width: u16) -> BasicFormattedRows<'_> {
    BasicFormattedRows {
        capture: Some(capture),
        width: usize::from(screen_width),
        ruler: None,
    }
}
