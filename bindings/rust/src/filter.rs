//! Filters.
use crate::error::Result;
use crate::object::Owned;
use crate::raw;

/// A filter that draws a program's lines, on the way to a hub or a screen.
///
/// Programs draw boxes with DEC's special graphics: after `ESC ( 0` the letters `lqqk` mean `┌──┐`. Hubs and screens
/// show letters there, as `vt100` does. A filter gives all bytes on as they are, except such letters: in their place it
/// gives the characters that they mean.
///
/// Directly after a sequence that `vt100` doesn't know, it gives others that `vt100` knows, and that do the same: such
/// as `CSI 4 m` after the curly underline `CSI 4:3 m`. `jeihpal.h` lists them.
///
/// ```
/// let mut filter = jeihpal::Filter::new()?;
/// assert_eq!(filter.pass(b"\x1b(0lq")?, "\x1b(0┌─".as_bytes());
/// assert_eq!(filter.pass(b"k")?, "┐".as_bytes());
/// # Ok::<(), jeihpal::Error>(())
/// ```
pub struct Filter {
    owned: Owned,
}

// SAFETY: nothing that a filter's word holds is shared with another object or tied to a thread, so the library lets it
// go to another thread (jeihpal.h). `&mut` and the missing `Sync` keep to one call at a time.
unsafe impl Send for Filter {}

impl Filter {
    /// A filter through which nothing has passed.
    pub fn new() -> Result<Filter> {
        // SAFETY, here and below: the word is as the last call left it, and what is lent is lent for the call.
        let fill = |word| unsafe { raw::jeihpal_filter_new(word) };
        Ok(Filter {
            owned: Owned::new(raw::jeihpal_filter_close, fill)?,
        })
    }

    /// Reads the next piece of a program's output, and returns the bytes to use in its place. It may be cut anywhere.
    ///
    /// If an allocation fails, the piece has not passed, and the call may be repeated with it.
    pub fn pass(&mut self, bytes: &[u8]) -> Result<Vec<u8>> {
        self.owned.give(raw::jeihpal_filter_pass, bytes)?;
        self.owned.bytes(|word, to, room, length| unsafe {
            raw::jeihpal_filter_given(word, to, room, length)
        })
    }
}
