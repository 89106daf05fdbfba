//! Operating system commands, as `vt100` reads them. The library keeps 1,024 bytes of one, so they are read here.
use super::{Callbacks, Screen};

/// How many pieces a command has at most.
const MOST_PIECES: usize = 16;

/// Calls the callback that a command is for.
pub(super) fn call(callbacks: &mut impl Callbacks, screen: &mut Screen, command: &[u8]) {
    let pieces = pieces(command);
    match pieces[..] {
        [b"0", text] => {
            callbacks.set_window_icon_name(screen, text);
            callbacks.set_window_title(screen, text);
        }
        [b"1", text] => callbacks.set_window_icon_name(screen, text),
        [b"2", text] => callbacks.set_window_title(screen, text),
        [b"52", letters, data] if are_among(letters, b"cpqs01234567") => match data {
            b"?" => callbacks.paste_from_clipboard(screen, letters),
            data if data.iter().copied().all(is_base64) => {
                callbacks.copy_to_clipboard(screen, letters, data);
            }
            _ => callbacks.unhandled_osc(screen, &pieces),
        },
        _ => callbacks.unhandled_osc(screen, &pieces),
    }
}

fn are_among(letters: &[u8], known: &[u8]) -> bool {
    letters.iter().all(|letter| known.contains(letter))
}

fn is_base64(byte: u8) -> bool {
    byte.is_ascii_alphanumeric() || matches!(byte, b'+' | b'/' | b'=')
}

/// The pieces between the first semicolons. What comes after the last of these semicolons isn't kept.
fn pieces(command: &[u8]) -> Vec<&[u8]> {
    let between = command.split(|byte| *byte == b';');
    between.take(MOST_PIECES).collect()
}
