//! What hubs, views, screens and recordings share.
use crate::cell::{Cell, Look};
use crate::error::{answer, Result};
use crate::raw::{
    self, Close, GetCell, GetCells, GetLook, GetRowText, GetText, GetTextFrom, Give, RawCell,
    RawLook, Word,
};
use std::cell::UnsafeCell;
use std::mem::MaybeUninit;
use std::ops::Deref;
use std::{ptr, slice};

/// The version number of the interface that the declarations are for.
const ABI: u32 = 1;

/// The code that the library returns for a place outside of the screen.
const NO_CELL: i32 = -8;

/// A text of at most this many bytes is copied by a single call, even if its length isn't known before.
const ROOM: usize = 16 * 1024;

/// Short texts usually have at most this many bytes.
const SHORT: usize = 64;

/// The functions that all kinds with a screen have.
pub(crate) struct Functions {
    pub(crate) close: Close,
    pub(crate) look: GetLook,
    pub(crate) cell: GetCell,
    pub(crate) cells: GetCells,
    pub(crate) row_text: GetRowText,
}

/// A word of the library's, which is closed when it is dropped.
///
/// For the library a call that reads is like any other, and at most one call may run at a time. The word isn't `Sync`,
/// and no call runs a callback, so there is never more than one call on it.
pub(crate) struct Owned {
    word: UnsafeCell<Word>,
    close: Close,
}

impl Owned {
    /// A word that a call fills.
    pub(crate) fn new(close: Close, fill: impl FnOnce(*mut Word) -> i32) -> Result<Owned> {
        // SAFETY: it may be called at any time.
        let abi = unsafe { raw::jeihpal_abi() };
        assert_eq!(abi, ABI, "libjeihpal.a is of another interface");
        let word = UnsafeCell::new(Word {
            held: ptr::null_mut(),
        });
        let owned = Owned { word, close };
        owned.call(fill)?;
        Ok(owned)
    }

    /// The word, for a call.
    pub(crate) fn word(&self) -> *mut Word {
        self.word.get()
    }

    /// Calls a function of the library on the word.
    pub(crate) fn call(&self, function: impl FnOnce(*mut Word) -> i32) -> Result<i32> {
        answer(function(self.word()))
    }

    /// Calls a function whose only result is success or a refusal.
    pub(crate) fn act(&self, function: impl FnOnce(*mut Word) -> i32) -> Result<()> {
        self.call(function).map(drop)
    }

    /// Calls a function that reads bytes.
    pub(crate) fn give(&self, function: Give, bytes: &[u8]) -> Result<()> {
        // SAFETY: the word is as the last call left it, and the bytes are lent for the call.
        self.act(|word| unsafe { function(word, bytes.as_ptr(), bytes.len()) })
    }

    /// Calls a function that copies bytes, and returns how many there are in all. The function's arguments are the room
    /// for the bytes, its size, and the place for their number.
    pub(crate) fn copy(
        &self,
        room: &mut [u8],
        function: impl FnOnce(*mut Word, *mut u8, usize, *mut usize) -> i32,
    ) -> Result<usize> {
        let mut length = 0;
        self.act(|word| function(word, room.as_mut_ptr(), room.len(), &mut length))?;
        Ok(length)
    }

    /// All bytes that such a function copies.
    pub(crate) fn bytes(
        &self,
        mut function: impl FnMut(*mut Word, *mut u8, usize, *mut usize) -> i32,
    ) -> Result<Vec<u8>> {
        let mut room = [MaybeUninit::<u8>::uninit(); ROOM];
        let mut length = 0;
        self.act(|word| function(word, room.as_mut_ptr().cast(), ROOM, &mut length))?;
        if length <= ROOM {
            // SAFETY: this many bytes have been copied into the room.
            let bytes = unsafe { slice::from_raw_parts(room.as_ptr().cast(), length) };
            return Ok(bytes.to_vec());
        }
        let mut bytes = vec![0; length];
        self.copy(&mut bytes, function)?;
        Ok(bytes)
    }

    /// The text that such a function copies.
    pub(crate) fn text(
        &self,
        function: impl FnMut(*mut Word, *mut u8, usize, *mut usize) -> i32,
    ) -> Result<String> {
        Ok(text_of(self.bytes(function)?))
    }

    /// The text that a function without further parameters copies.
    pub(crate) fn whole_text(&self, function: GetText) -> Result<String> {
        // SAFETY, here and below: the word is as the last call left it, and what is lent is lent for the call.
        self.text(|word, to, room, length| unsafe { function(word, to, room, length) })
    }

    /// Sets `text` to a short text that such a function copies. The room that it has is used again.
    pub(crate) fn read_text(&self, function: GetText, text: &mut String) -> Result<()> {
        let mut bytes = std::mem::take(text).into_bytes();
        bytes.clear();
        let mut length = SHORT;
        loop {
            bytes.reserve(length);
            let most = bytes.capacity();
            self.act(|word| unsafe { function(word, bytes.as_mut_ptr(), most, &mut length) })?;
            if length <= most {
                // SAFETY: this many bytes have been copied into the room.
                unsafe { bytes.set_len(length) };
                *text = text_of(bytes);
                return Ok(());
            }
        }
    }
}

/// Copied bytes of a screen, as a text.
// Checking each character would take a third more time if they are beyond ASCII.
fn text_of(bytes: Vec<u8>) -> String {
    debug_assert!(std::str::from_utf8(&bytes).is_ok());
    // SAFETY: the library makes texts and escape sequences as strings, whose bytes are UTF-8.
    unsafe { String::from_utf8_unchecked(bytes) }
}

impl Drop for Owned {
    fn drop(&mut self) {
        // SAFETY: the word is null, or as the last call left it.
        unsafe { (self.close)(self.word()) }
    }
}

/// An object with a screen.
pub(crate) struct Object {
    owned: Owned,
    functions: &'static Functions,
}

impl Deref for Object {
    type Target = Owned;

    fn deref(&self) -> &Owned {
        &self.owned
    }
}

impl Object {
    /// An object whose word a call fills.
    pub(crate) fn new(
        functions: &'static Functions,
        fill: impl FnOnce(*mut Word) -> i32,
    ) -> Result<Object> {
        let owned = Owned::new(functions.close, fill)?;
        Ok(Object { owned, functions })
    }

    pub(crate) fn row_text(&self, row: u16) -> Result<String> {
        let function = self.functions.row_text;
        self.text(|word, to, room, length| unsafe { function(word, row, to, room, length) })
    }

    /// Reads the look into its place.
    #[inline]
    pub(crate) fn read_look(&self, look: &mut RawLook) {
        self.call(|word| unsafe { (self.functions.look)(word, look) })
            .expect("a look is never refused");
    }

    pub(crate) fn look(&self) -> Look {
        let mut look = RawLook::default();
        self.read_look(&mut look);
        Look::of(&look)
    }

    pub(crate) fn cell(&self, row: u16, col: u16) -> Option<Cell> {
        let mut cell = Cell::default();
        self.read_cell(row, col, &mut cell).then_some(cell)
    }

    /// Sets `cell` to the one at a place, and returns whether there is one.
    pub(crate) fn read_cell(&self, row: u16, col: u16, cell: &mut Cell) -> bool {
        let to = ptr::from_mut(cell).cast();
        // SAFETY: a `Cell` is a `RawCell`; the rest is as in other calls.
        let code = unsafe { (self.functions.cell)(self.word(), row, col, to) };
        if code == NO_CELL {
            return false;
        }
        answer(code).expect("a cell is never refused");
        true
    }

    /// The cells of a row and whether its text continues in the next row; nothing past the last row.
    pub(crate) fn row(&self, row: u16, cols: u16) -> Option<(Vec<Cell>, bool)> {
        let mut cells = Vec::new();
        let wrapped = self.read_row(row, cols, &mut cells)?;
        Some((cells, wrapped))
    }

    /// Sets `cells` to those of a row, in one call, and returns whether its text continues in the next row; nothing past
    /// the last row.
    pub(crate) fn read_row(&self, row: u16, cols: u16, cells: &mut Vec<Cell>) -> Option<bool> {
        let most = usize::from(cols);
        cells.clear();
        cells.reserve(most);
        let (mut count, mut wrapped) = (0, 0);
        // SAFETY: a `Cell` is a `RawCell`, and there is room for as many as is said; the rest is as in other calls.
        let code = unsafe {
            let room = cells.as_mut_ptr().cast::<RawCell>();
            (self.functions.cells)(self.word(), row, room, most, &mut count, &mut wrapped)
        };
        if code == NO_CELL {
            return None;
        }
        answer(code).expect("cells are never refused");
        // SAFETY: as many as fit have been copied into the room.
        unsafe { cells.set_len(count.min(most)) };
        Some(wrapped != 0)
    }

    /// The cells of a row; none past the last row.
    pub(crate) fn cells(&self, row: u16) -> impl Iterator<Item = Cell> + '_ {
        let cells = self.row(row, self.look().cols).map(|(cells, _)| cells);
        cells.unwrap_or_default().into_iter()
    }

    /// The text that a function copies that also reads another object. If both are the same object, it is empty.
    pub(crate) fn text_from(&self, earlier: &Object, function: GetTextFrom) -> Result<String> {
        if std::ptr::eq(self, earlier) {
            return Ok(String::new());
        }
        // SAFETY: these are two words, each as the last call left it.
        self.text(|word, to, room, length| unsafe {
            function(word, earlier.word(), to, room, length)
        })
    }

    /// The texts of all rows.
    pub(crate) fn rows(&self) -> impl Iterator<Item = Result<String>> + '_ {
        (0..self.look().rows).map(|row| self.row_text(row))
    }
}

/// The public calls that read what is shown, which all kinds have.
macro_rules! reading_calls {
    () => {
        /// The size, the cursor and the modes of the screen.
        pub fn look(&self) -> crate::cell::Look {
            self.object.look()
        }

        /// The cell at a place of the screen.
        pub fn cell(&self, row: u16, col: u16) -> Option<crate::cell::Cell> {
            self.object.cell(row, col)
        }

        /// The cells of a row and whether its text continues in the next row; nothing past the last row.
        pub fn row(&self, row: u16) -> Option<(Vec<crate::cell::Cell>, bool)> {
            self.object.row(row, self.object.look().cols)
        }

        /// The cells of a row; none past the last row.
        pub fn cells(&self, row: u16) -> impl Iterator<Item = crate::cell::Cell> + '_ {
            self.object.cells(row)
        }

        /// The text of a row, without the empty columns at its end.
        pub fn row_text(&self, row: u16) -> crate::error::Result<String> {
            self.object.row_text(row)
        }

        /// The texts of the rows.
        pub fn rows(&self) -> impl Iterator<Item = crate::error::Result<String>> + '_ {
            self.object.rows()
        }
    };
}

pub(crate) use reading_calls;
