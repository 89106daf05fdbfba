//! What a screen shows.
use crate::raw::{RawCell, RawColor, RawDrawing, RawLook};
use std::fmt;

/// A colour of text, or of its background.
#[derive(Clone, Copy, Debug, Default, Eq, Hash, PartialEq)]
pub enum Color {
    /// The terminal's own.
    #[default]
    Default,
    /// One of the 256 numbered ones.
    Idx(u8),
    /// Red, green and blue.
    Rgb(u8, u8, u8),
}

impl Color {
    #[inline]
    fn of(raw: RawColor) -> Color {
        match raw.kind {
            0 => Color::Default,
            1 => Color::Idx(raw.red_or_index),
            _ => Color::Rgb(raw.red_or_index, raw.green, raw.blue),
        }
    }
}

/// One cell of a screen.
#[repr(transparent)]
#[derive(Clone, Copy)]
pub struct Cell {
    raw: RawCell,
}

impl Cell {
    /// A character and the zero-width ones that joined it, or nothing.
    #[inline]
    pub fn contents(&self) -> &str {
        let length = usize::from(self.raw.length);
        std::str::from_utf8(&self.raw.text[..length]).expect("a cell's text is UTF-8")
    }

    /// Whether it shows a character.
    #[inline]
    pub fn has_contents(&self) -> bool {
        self.raw.length > 0
    }

    /// Whether it takes the next column too.
    #[inline]
    pub fn is_wide(&self) -> bool {
        self.raw.width == 2
    }

    /// Whether it is the second half of a wide cell.
    #[inline]
    pub fn is_wide_continuation(&self) -> bool {
        self.raw.width == 0
    }

    /// The text's colour.
    #[inline]
    pub fn fgcolor(&self) -> Color {
        Color::of(self.raw.foreground)
    }

    /// The background's colour.
    #[inline]
    pub fn bgcolor(&self) -> Color {
        Color::of(self.raw.background)
    }

    /// Whether the text is bold.
    #[inline]
    pub fn bold(&self) -> bool {
        self.raw.attributes & 1 != 0
    }

    /// Whether the text is dim. It isn't if it is bold.
    #[inline]
    pub fn dim(&self) -> bool {
        self.raw.attributes & 3 == 2
    }

    /// Whether the text is italic.
    #[inline]
    pub fn italic(&self) -> bool {
        self.raw.attributes & 4 != 0
    }

    /// Whether the text is underlined.
    #[inline]
    pub fn underline(&self) -> bool {
        self.raw.attributes & 8 != 0
    }

    /// Whether the text's colours are exchanged.
    #[inline]
    pub fn inverse(&self) -> bool {
        self.raw.attributes & 16 != 0
    }

    /// How it is drawn.
    pub(crate) fn drawing(&self) -> Drawing {
        Drawing {
            fgcolor: self.fgcolor(),
            bgcolor: self.bgcolor(),
            bold: self.bold(),
            dim: self.dim(),
            italic: self.italic(),
            underline: self.underline(),
            inverse: self.inverse(),
        }
    }

    /// All that distinguishes it.
    fn parts(&self) -> (&str, u8, u8, Color, Color) {
        (
            self.contents(),
            self.raw.width,
            self.raw.attributes,
            self.fgcolor(),
            self.bgcolor(),
        )
    }
}

impl Default for Cell {
    /// An empty cell.
    fn default() -> Cell {
        let raw = RawCell {
            width: 1,
            ..RawCell::default()
        };
        Cell { raw }
    }
}

impl PartialEq for Cell {
    fn eq(&self, other: &Cell) -> bool {
        self.parts() == other.parts()
    }
}

impl Eq for Cell {}

impl fmt::Debug for Cell {
    fn fmt(&self, f: &mut fmt::Formatter<'_>) -> fmt::Result {
        let (contents, width, attributes, foreground, background) = self.parts();
        f.debug_struct("Cell")
            .field("contents", &contents)
            .field("width", &width)
            .field("attributes", &attributes)
            .field("fgcolor", &foreground)
            .field("bgcolor", &background)
            .finish()
    }
}

/// Which events of the mouse a program asks for.
#[derive(Clone, Copy, Debug, Default, Eq, Hash, PartialEq)]
pub enum MouseProtocolMode {
    /// None.
    #[default]
    None,
    /// A button going down.
    Press,
    /// A button going down or up.
    PressRelease,
    /// Also motion while a button is down.
    ButtonMotion,
    /// Also any motion.
    AnyMotion,
}

/// How events of the mouse are written.
#[derive(Clone, Copy, Debug, Default, Eq, Hash, PartialEq)]
pub enum MouseProtocolEncoding {
    /// A byte for each number.
    #[default]
    Default,
    /// A character of UTF-8 for each number.
    Utf8,
    /// Decimal numbers.
    Sgr,
}

/// How the cursor looks.
#[derive(Clone, Copy, Debug, Default, Eq, Hash, PartialEq)]
pub enum CursorStyle {
    /// As the terminal has it.
    #[default]
    Default,
    /// A blinking block.
    BlinkBlock,
    /// A steady block.
    SteadyBlock,
    /// A blinking underline.
    BlinkUnderline,
    /// A steady underline.
    SteadyUnderline,
    /// A blinking vertical bar.
    BlinkVerticalBar,
    /// A steady vertical bar.
    SteadyVerticalBar,
}

/// A screen's size, cursor and modes.
#[derive(Clone, Copy, Debug, Eq, Hash, PartialEq)]
#[non_exhaustive]
pub struct Look {
    /// How many rows it has.
    pub rows: u16,
    /// How many columns it has.
    pub cols: u16,
    /// The cursor's row and column. The column is `cols` if the next character goes to the next row.
    pub cursor: (u16, u16),
    /// How the cursor looks.
    pub cursor_style: CursorStyle,
    /// The cursor is hidden.
    pub hide_cursor: bool,
    /// How many rows have scrolled off and are kept; 0 in a hub or a view.
    pub scrollback_len: usize,
    /// How many of them are shown; 0 in a hub or a view.
    pub scrollback: usize,
    /// Which events of the mouse are asked for.
    pub mouse_protocol_mode: MouseProtocolMode,
    /// How they are written.
    pub mouse_protocol_encoding: MouseProtocolEncoding,
    /// The keypad sends application sequences.
    pub application_keypad: bool,
    /// The cursor keys do.
    pub application_cursor: bool,
    /// Pasted text is marked as such.
    pub bracketed_paste: bool,
    /// The alternate screen is shown; never in a view.
    pub alternate_screen: bool,
    /// The program is in a synchronized update of its own; never in a view.
    pub is_updating: bool,
    /// The screen has failed for lack of memory; never in a view.
    pub has_failed: bool,
}

const STYLES: [CursorStyle; 7] = [
    CursorStyle::Default,
    CursorStyle::BlinkBlock,
    CursorStyle::SteadyBlock,
    CursorStyle::BlinkUnderline,
    CursorStyle::SteadyUnderline,
    CursorStyle::BlinkVerticalBar,
    CursorStyle::SteadyVerticalBar,
];

const MODES: [MouseProtocolMode; 5] = [
    MouseProtocolMode::None,
    MouseProtocolMode::Press,
    MouseProtocolMode::PressRelease,
    MouseProtocolMode::ButtonMotion,
    MouseProtocolMode::AnyMotion,
];

const ENCODINGS: [MouseProtocolEncoding; 3] = [
    MouseProtocolEncoding::Default,
    MouseProtocolEncoding::Utf8,
    MouseProtocolEncoding::Sgr,
];

/// The value that a number means; a number that this crate doesn't know means the default.
fn named<T: Copy + Default>(names: &[T], number: u8) -> T {
    names.get(usize::from(number)).copied().unwrap_or_default()
}

/// How the next character is drawn.
#[derive(Clone, Copy, Debug, Default, Eq, Hash, PartialEq)]
#[non_exhaustive]
pub struct Drawing {
    /// The text's colour.
    pub fgcolor: Color,
    /// The background's colour.
    pub bgcolor: Color,
    /// It is bold.
    pub bold: bool,
    /// It is dim.
    pub dim: bool,
    /// It is in italics.
    pub italic: bool,
    /// It is underlined.
    pub underline: bool,
    /// Its colours are exchanged.
    pub inverse: bool,
}

impl Drawing {
    #[inline]
    pub(crate) fn of(raw: &RawDrawing) -> Drawing {
        Drawing {
            fgcolor: Color::of(raw.foreground),
            bgcolor: Color::of(raw.background),
            bold: raw.bold != 0,
            dim: raw.dim != 0,
            italic: raw.italic != 0,
            underline: raw.underlined != 0,
            inverse: raw.inverse != 0,
        }
    }
}

impl Look {
    #[inline]
    pub(crate) fn of(raw: &RawLook) -> Look {
        Look {
            rows: raw.rows,
            cols: raw.cols,
            cursor: (raw.row, raw.col),
            cursor_style: named(&STYLES, raw.style),
            hide_cursor: raw.hidden != 0,
            scrollback_len: raw.kept,
            scrollback: raw.scrolled,
            mouse_protocol_mode: named(&MODES, raw.mouse),
            mouse_protocol_encoding: named(&ENCODINGS, raw.encoding),
            application_keypad: raw.keypad != 0,
            application_cursor: raw.cursor_keys != 0,
            bracketed_paste: raw.paste != 0,
            alternate_screen: raw.alternate != 0,
            is_updating: raw.updating != 0,
            has_failed: raw.failed != 0,
        }
    }
}
