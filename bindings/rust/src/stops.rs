//! Where a program's bytes are cut, so that a callback is called right after the bytes that ask for it.

/// What kind of sequence the bytes so far are in.
#[derive(Clone, Copy, Debug, Default, Eq, PartialEq)]
enum Inside {
    #[default]
    Text,
    /// After ESC and intermediates.
    Escape,
    /// After `ESC [`.
    Control,
    /// An operating system command.
    Command,
    /// Another string.
    String,
}

const BELL: u8 = 0x07;
const CANCEL: u8 = 0x18;
const SUBSTITUTE: u8 = 0x1a;
const ESCAPE: u8 = 0x1b;
const DELETE: u8 = 0x7f;
const STRING_END: u8 = 0x9c;

/// A piece has at most this many bytes, less the rows that its sequences may scroll off. So fewer rows than this scroll
/// off before its last sequence, and there is room in the library's queue for what that sequence asks.
const MOST_BYTES: usize = 256;

/// How many bytes of a control sequence are looked at.
const MOST_PARAMETERS: usize = 64;

/// Finds the bytes after which a callback may be due. A stop too many only costs time. It also keeps operating system
/// commands, which the library cuts.
#[derive(Clone, Debug, Default)]
pub(crate) struct Stops {
    inside: Inside,
    /// The bytes after ESC, or after `ESC [`.
    sequence: Vec<u8>,
    command: Vec<u8>,
    is_whole: bool,
    /// How many rows the sequence that has just ended may scroll off.
    rows: usize,
}

impl Stops {
    /// How many of these bytes there are up to the next stop. There must be at least one byte.
    pub(crate) fn next(&mut self, bytes: &[u8]) -> usize {
        let mut most = MOST_BYTES;
        let mut bytes = &bytes[..bytes.len().min(most)];
        let mut at = 0;
        self.rows = 0;
        while at < bytes.len() {
            let mut is_cut = false;
            if self.inside == Inside::Text {
                let count = text_length(&bytes[at..]);
                let text = &bytes[at..at + count];
                if let Some(count) = unknown_in(text) {
                    return at + count;
                }
                is_cut = !text.is_ascii() && std::str::from_utf8(text).is_err();
                at += count;
                if at == bytes.len() {
                    return at;
                }
            }
            if let Some((parameters, last)) = self.control_at(&bytes[at..], is_cut) {
                at += b"\x1b[".len() + parameters.len() + 1;
                if !is_known_control(parameters, last) {
                    return at;
                }
                most = most.saturating_sub(rows_of(parameters, last)).max(at);
                bytes = &bytes[..bytes.len().min(most)];
                continue;
            }
            at += 1;
            if self.is_stop(bytes[at - 1]) || is_cut {
                return at;
            }
            most = most.saturating_sub(std::mem::take(&mut self.rows)).max(at);
            bytes = &bytes[..bytes.len().min(most)];
        }
        at
    }

    /// The operating system command that ends with the last piece, if one does.
    pub(crate) fn command(&mut self) -> Option<Vec<u8>> {
        let is_whole = std::mem::take(&mut self.is_whole);
        is_whole.then(|| std::mem::take(&mut self.command))
    }

    /// The control sequence that these bytes begin with, if it is whole and has only numbers, as most have. After a
    /// character that is cut, there is a stop in it.
    fn control_at<'a>(&self, bytes: &'a [u8], is_cut: bool) -> Option<(&'a [u8], u8)> {
        if self.inside != Inside::Text || is_cut {
            return None;
        }
        let rest = bytes.strip_prefix(b"\x1b[")?;
        let is_last = |byte: &u8| !matches!(*byte, b'0'..=b'9' | b';');
        let (parameters, rest) = rest.split_at(rest.iter().position(is_last)?);
        let last = rest[0];
        matches!(last, 0x40..=0x7e).then_some((parameters, last))
    }

    fn is_stop(&mut self, byte: u8) -> bool {
        let (before, begins) = (self.inside, self.sequence.is_empty());
        self.inside = match (before, byte) {
            (_, ESCAPE) => Inside::Escape,
            (_, CANCEL | SUBSTITUTE) => Inside::Text,
            (Inside::Escape, b'[') if begins => Inside::Control,
            (Inside::Escape, b']') if begins => Inside::Command,
            (Inside::Escape, b'P' | b'X' | b'^' | b'_') if begins => Inside::String,
            (Inside::Escape, 0x30..=0x7e) | (Inside::Control, 0x40..=0x7e) => Inside::Text,
            (Inside::Command, BELL) | (Inside::String, STRING_END) => Inside::Text,
            _ => before,
        };
        match before {
            Inside::Command => self.is_end(byte),
            Inside::String => matches!(byte, CANCEL | SUBSTITUTE),
            Inside::Escape | Inside::Control => self.is_stop_inside(before, byte),
            Inside::Text => is_unknown_control(byte),
        }
    }

    /// As `is_stop`, within a sequence: at its end, at an operating system command, and at a control.
    fn is_stop_inside(&mut self, before: Inside, byte: u8) -> bool {
        if self.inside == before && byte != ESCAPE {
            if matches!(byte, 0x20..=0x7e) && self.sequence.len() < MOST_PARAMETERS {
                self.sequence.push(byte);
            }
            return byte < 0x20;
        }
        let is_known = match before {
            Inside::Escape => self.sequence.is_empty() && is_known_escape(byte),
            _ => self.inside == Inside::Text && is_known_control(&self.sequence, byte),
        };
        self.rows = rows_of(&self.sequence, byte);
        self.sequence.clear();
        !is_known
    }

    /// Keeps a byte of an operating system command, and returns whether the command ends with it.
    fn is_end(&mut self, byte: u8) -> bool {
        self.is_whole = matches!(byte, BELL | CANCEL | SUBSTITUTE | ESCAPE);
        if byte >= 0x20 {
            self.command.push(byte);
        }
        self.is_whole
    }
}

/// How many bytes of text a piece begins with.
fn text_length(bytes: &[u8]) -> usize {
    let mark = |byte: &u8| *byte < 0x20 || *byte == DELETE;
    bytes.iter().position(mark).unwrap_or(bytes.len())
}

/// Whether a screen does nothing for a control. It knows those from BS to SI.
fn is_unknown_control(byte: u8) -> bool {
    !matches!(byte, 0x08..=0x0f | ESCAPE)
}

/// Whether a screen knows an escape sequence without intermediates, and no callback is called for it. Those that begin
/// another sequence count too.
fn is_known_escape(last: u8) -> bool {
    matches!(
        last,
        b'7' | b'8' | b'=' | b'>' | b'M' | b'c' | b'[' | b'P' | b'X' | b'^' | b'_' | ESCAPE
    )
}

/// Whether a screen certainly knows a control sequence, and no callback is called for it.
fn is_known_control(parameters: &[u8], last: u8) -> bool {
    let are_plain = |byte: &u8| matches!(*byte, b'0'..=b'9' | b';');
    if parameters.len() >= MOST_PARAMETERS || !parameters.iter().all(are_plain) {
        return false;
    }
    match last {
        b'@' | b'A'..=b'H' | b'L' | b'M' | b'P' | b'S' | b'T' | b'X' => true,
        b'`' | b'b' | b'd' | b'f' | b'r' => true,
        b'J' | b'K' => matches!(parameters, b"" | b"0" | b"1" | b"2"),
        b'm' => are_known_attributes(parameters),
        _ => false,
    }
}

/// How many rows a control sequence scrolls off at most: one that repeats a character, or scrolls.
fn rows_of(parameters: &[u8], last: u8) -> usize {
    if !matches!(last, b'b' | b'S') {
        return 0;
    }
    number_of(parameters)
}

/// The number that bytes begin with; 0 if they don't begin with one.
fn number_of(bytes: &[u8]) -> usize {
    let digits = bytes.iter().take_while(|byte| byte.is_ascii_digit());
    digits.fold(0, |number: usize, digit| {
        let next = number.saturating_mul(10);
        next.saturating_add(usize::from(digit - b'0'))
    })
}

/// Whether a screen knows each number of SGR.
fn are_known_attributes(parameters: &[u8]) -> bool {
    let pieces = parameters.split(|byte| *byte == b';');
    let mut numbers = pieces.map(|digits| u8::try_from(number_of(digits)).ok());
    while let Some(number) = numbers.next() {
        let is_known = match number {
            Some(38 | 48) => match numbers.next() {
                Some(Some(5)) => matches!(numbers.next(), Some(Some(_))),
                Some(Some(2)) => (0..3).all(|_| matches!(numbers.next(), Some(Some(_)))),
                _ => false,
            },
            Some(0..=4 | 7 | 22..=24 | 27 | 30..=37 | 39..=47 | 49 | 90..=97 | 100..=107) => true,
            _ => false,
        };
        if !is_known {
            return false;
        }
    }
    true
}

/// Up to where a text has to be read for the first character that a screen doesn't show: U+FFFD, a control from U+0080
/// to U+009F, or malformed bytes. A byte that can't begin a character is malformed by itself. Other bytes are found to
/// be malformed by the byte after them.
fn unknown_in(text: &[u8]) -> Option<usize> {
    if text.is_ascii() {
        return None;
    }
    let (valid, malformed) = match std::str::from_utf8(text) {
        Ok(valid) => (valid, None),
        Err(error) => {
            let (valid, rest) = text.split_at(error.valid_up_to());
            let behind = usize::from(!matches!(rest, [0x80..=0xc1 | 0xf5..=0xff, ..]));
            let end = error.error_len().map(|count| valid.len() + count + behind);
            (std::str::from_utf8(valid).unwrap_or_default(), end)
        }
    };
    let is_unknown = |c: char| c == '\u{fffd}' || ('\u{80}'..'\u{a0}').contains(&c);
    let found = valid.char_indices().find(|(_, c)| is_unknown(*c));
    match found {
        Some((at, c)) => Some(at + c.len_utf8()),
        None => malformed.map(|end| end.min(text.len())),
    }
}

#[cfg(test)]
mod tests {
    use super::*;

    fn pieces(bytes: &[u8]) -> Vec<&[u8]> {
        let (mut stops, mut rest, mut found) = (Stops::default(), bytes, Vec::new());
        while !rest.is_empty() {
            let (piece, left) = rest.split_at(stops.next(rest));
            found.push(piece);
            rest = left;
        }
        found
    }

    #[test]
    fn behind_what_asks() {
        let bytes = b"ab\r\n\x07tg\x1b[8;1;2tt\x1bgg\x1b]2;title\x07t\x1b]2;t\x1b\\\x1b[31mred";
        let want: [&[u8]; 9] = [
            b"ab\r\n\x07",
            b"tg\x1b[8;1;2t",
            b"t\x1bg",
            b"g\x1b]",
            b"2;title\x07",
            b"t\x1b]",
            b"2;t\x1b",
            b"\\",
            b"\x1b[31mred",
        ];
        assert_eq!(pieces(bytes), want);
        let bytes = b"\x1b7\x1b[2J\x1b[38;5;9;1ma\x1b[38;5;999mb\x1b[?1hc\x1b[4:3md\x1b(Be\x1b[3Jf\x1b[\x08Ag";
        let want: [&[u8]; 7] = [
            b"\x1b7\x1b[2J\x1b[38;5;9;1ma\x1b[38;5;999m",
            b"b\x1b[?1h",
            b"c\x1b[4:3m",
            b"d\x1b(B",
            b"e\x1b[3J",
            b"f\x1b[\x08",
            b"Ag",
        ];
        assert_eq!(pieces(bytes), want);
    }

    #[test]
    fn behind_characters_that_are_not_shown() {
        let bytes = b"a\xc3\xa4\xef\xbf\xbdb\xc2\x9bc\xff\x9bd\xc3e\xe4\x1b[mf";
        let want: [&[u8]; 7] = [
            b"a\xc3\xa4\xef\xbf\xbd",
            b"b\xc2\x9b",
            b"c\xff",
            b"\x9b",
            b"d\xc3e",
            b"\xe4\x1b",
            b"[mf",
        ];
        assert_eq!(pieces(bytes), want);
    }

    #[test]
    fn behind_many_rows() {
        let bytes = b"a\x1b[2bb\x1b[700bc\x1b[200S\x1b[60Sd\x1b[S";
        let want: [&[u8]; 3] = [b"a\x1b[2bb\x1b[700b", b"c\x1b[200S\x1b[60S", b"d\x1b[S"];
        assert_eq!(pieces(bytes), want);
    }

    #[test]
    fn commands_are_whole() {
        let mut stops = Stops::default();
        let text = [b"\x1b]2;".to_vec(), vec![b'a'; 5000], b"\x07b".to_vec()].concat();
        let (mut rest, mut found) = (&text[..], Vec::new());
        while !rest.is_empty() {
            rest = &rest[stops.next(rest)..];
            found.extend(stops.command());
        }
        assert_eq!(found, [[b"2;".to_vec(), vec![b'a'; 5000]].concat()]);
    }
}
