//! Views.
use crate::error::Result;
use crate::object::{reading_calls, Functions, Object};
use crate::raw;
use std::io;
use std::num::NonZeroU16;

static FUNCTIONS: Functions = Functions {
    close: raw::jeihpal_view_close,
    look: raw::jeihpal_view_look,
    cell: raw::jeihpal_view_cell,
    cells: raw::jeihpal_view_row_cells,
    row_text: raw::jeihpal_view_row_text,
};

/// A small far terminal, which reads frames in any pieces.
///
/// What is written to it as [`io::Write`] it reads. It may move to another thread:
///
/// ```
/// # let size = std::num::NonZeroU16::new(1).unwrap();
/// let view = jeihpal::View::new(size, size)?;
/// std::thread::spawn(move || drop(view)).join().unwrap();
/// # Ok::<(), jeihpal::Error>(())
/// ```
pub struct View {
    object: Object,
}

// SAFETY: nothing that a view's word holds is shared with another object or tied to a thread, so the library lets it
// go to another thread (jeihpal.h). `&mut` and the missing `Sync` keep to one call at a time.
unsafe impl Send for View {}

impl View {
    /// A view of this size that shows nothing. It allocates all the memory that it needs, except for texts.
    pub fn new(rows: NonZeroU16, cols: NonZeroU16) -> Result<View> {
        // SAFETY, here and below: the word is as the last call left it, and what is lent is lent for the call.
        let fill = |word| unsafe { raw::jeihpal_view_new(word, rows.get(), cols.get()) };
        Ok(View {
            object: Object::new(&FUNCTIONS, fill)?,
        })
    }

    /// The same for a size that a stranger chooses: one of more than `most_cells` cells is refused by
    /// [`Error::TooLarge`](crate::Error::TooLarge).
    pub fn new_within(rows: NonZeroU16, cols: NonZeroU16, most_cells: usize) -> Result<View> {
        let fill = |word| unsafe {
            raw::jeihpal_view_new_within(word, rows.get(), cols.get(), most_cells)
        };
        Ok(View {
            object: Object::new(&FUNCTIONS, fill)?,
        })
    }

    /// Reads the next bytes. What a frame changes is shown once its last byte has been read.
    pub fn advance(&mut self, bytes: &[u8]) {
        self.object
            .give(raw::jeihpal_view_advance, bytes)
            .expect("a view reads everything");
    }

    /// Parses the bytes that are held back, and shows what they change: for a frame that has begun, but whose end
    /// doesn't come.
    pub fn stop(&mut self) {
        self.object
            .call(|word| unsafe { raw::jeihpal_view_stop(word) })
            .expect("a stop is never refused");
    }

    /// How many bytes are held back, until the end of a frame or of a synchronized update.
    pub fn held(&self) -> usize {
        let mut count = 0;
        self.object
            .call(|word| unsafe { raw::jeihpal_view_held(word, &mut count) })
            .expect("it is never refused");
        count
    }

    reading_calls!();
}

impl io::Write for View {
    fn write(&mut self, bytes: &[u8]) -> io::Result<usize> {
        self.advance(bytes);
        Ok(bytes.len())
    }

    fn flush(&mut self) -> io::Result<()> {
        Ok(())
    }
}
