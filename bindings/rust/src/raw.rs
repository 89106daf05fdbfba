//! The library's structs and functions, as `jeihpal.h` declares them.

/// `jeihpal_hub`, `jeihpal_view`, `jeihpal_screen`, `jeihpal_recording` and `jeihpal_filter`.
#[repr(C)]
pub(crate) struct Word {
    pub(crate) held: *mut u8,
}

/// `jeihpal_color`.
#[repr(C)]
#[derive(Clone, Copy, Default, PartialEq)]
pub(crate) struct RawColor {
    pub(crate) kind: u8,
    pub(crate) red_or_index: u8,
    pub(crate) green: u8,
    pub(crate) blue: u8,
}

/// `jeihpal_cell`.
#[repr(C)]
#[derive(Clone, Copy, Default)]
pub(crate) struct RawCell {
    pub(crate) text: [u8; 32],
    pub(crate) length: u8,
    pub(crate) width: u8,
    pub(crate) attributes: u8,
    pub(crate) reserved: u8,
    pub(crate) foreground: RawColor,
    pub(crate) background: RawColor,
}

/// `jeihpal_drawing`.
#[repr(C)]
#[derive(Clone, Copy, Default, PartialEq)]
pub(crate) struct RawDrawing {
    pub(crate) foreground: RawColor,
    pub(crate) background: RawColor,
    pub(crate) bold: u8,
    pub(crate) dim: u8,
    pub(crate) italic: u8,
    pub(crate) underlined: u8,
    pub(crate) inverse: u8,
}

/// `jeihpal_look`.
#[repr(C)]
#[derive(Default)]
pub(crate) struct RawLook {
    pub(crate) kept: usize,
    pub(crate) scrolled: usize,
    pub(crate) rows: u16,
    pub(crate) cols: u16,
    pub(crate) row: u16,
    pub(crate) col: u16,
    pub(crate) hidden: u8,
    pub(crate) style: u8,
    pub(crate) mouse: u8,
    pub(crate) encoding: u8,
    pub(crate) keypad: u8,
    pub(crate) cursor_keys: u8,
    pub(crate) paste: u8,
    pub(crate) alternate: u8,
    pub(crate) updating: u8,
    pub(crate) failed: u8,
}

/// `jeihpal_request`.
#[repr(C)]
#[derive(Default)]
pub(crate) struct RawRequest {
    pub(crate) length: usize,
    pub(crate) letters: usize,
    pub(crate) dropped: usize,
    pub(crate) rows: u16,
    pub(crate) cols: u16,
    pub(crate) kind: u8,
}

/// `jeihpal_recorded`.
#[repr(C)]
#[derive(Default)]
pub(crate) struct RawRecorded {
    pub(crate) events: usize,
    pub(crate) length: u64,
    pub(crate) place: u64,
    pub(crate) rows: u16,
    pub(crate) cols: u16,
    pub(crate) kind: u8,
    pub(crate) fault: u8,
}

/// `jeihpal_event`.
#[repr(C)]
#[derive(Default)]
pub(crate) struct RawEvent {
    pub(crate) time: u64,
    pub(crate) length: usize,
    pub(crate) rows: u16,
    pub(crate) cols: u16,
    pub(crate) kind: u8,
}

pub(crate) type Close = unsafe extern "C" fn(*mut Word);
pub(crate) type GetLook = unsafe extern "C" fn(*mut Word, *mut RawLook) -> i32;
pub(crate) type GetCell = unsafe extern "C" fn(*mut Word, u16, u16, *mut RawCell) -> i32;
pub(crate) type GetText = unsafe extern "C" fn(*mut Word, *mut u8, usize, *mut usize) -> i32;
pub(crate) type GetRowText =
    unsafe extern "C" fn(*mut Word, u16, *mut u8, usize, *mut usize) -> i32;
pub(crate) type GetCells =
    unsafe extern "C" fn(*mut Word, u16, *mut RawCell, usize, *mut usize, *mut u8) -> i32;
pub(crate) type GetTextFrom =
    unsafe extern "C" fn(*mut Word, *mut Word, *mut u8, usize, *mut usize) -> i32;
pub(crate) type Give = unsafe extern "C" fn(*mut Word, *const u8, usize) -> i32;

extern "C" {
    pub(crate) fn jeihpal_abi() -> u32;
    pub(crate) fn jeihpal_hub_new(hub: *mut Word, rows: u16, cols: u16) -> i32;
    pub(crate) fn jeihpal_hub_new_within(
        hub: *mut Word,
        rows: u16,
        cols: u16,
        most_cells: usize,
    ) -> i32;
    pub(crate) fn jeihpal_hub_feed(hub: *mut Word, bytes: *const u8, count: usize) -> i32;
    pub(crate) fn jeihpal_hub_resize(hub: *mut Word, rows: u16, cols: u16) -> i32;
    pub(crate) fn jeihpal_hub_resize_within(
        hub: *mut Word,
        rows: u16,
        cols: u16,
        most_cells: usize,
    ) -> i32;
    pub(crate) fn jeihpal_hub_attach(hub: *mut Word, client: *mut usize) -> i32;
    pub(crate) fn jeihpal_hub_fork(hub: *mut Word, client: usize, fork: *mut usize) -> i32;
    pub(crate) fn jeihpal_hub_detach(hub: *mut Word, client: usize) -> i32;
    pub(crate) fn jeihpal_hub_frame(hub: *mut Word, client: usize) -> i32;
    pub(crate) fn jeihpal_hub_owed(
        hub: *mut Word,
        client: usize,
        to: *mut u8,
        capacity: usize,
        length: *mut usize,
    ) -> i32;
    pub(crate) fn jeihpal_hub_redraw(
        hub: *mut Word,
        client: usize,
        to: *mut u8,
        capacity: usize,
        length: *mut usize,
    ) -> i32;
    pub(crate) fn jeihpal_hub_whole_frame(
        hub: *mut Word,
        client: usize,
        to: *mut u8,
        capacity: usize,
        length: *mut usize,
    ) -> i32;
    pub(crate) fn jeihpal_hub_sent(hub: *mut Word, client: usize, count: usize) -> i32;
    pub(crate) fn jeihpal_hub_look(hub: *mut Word, look: *mut RawLook) -> i32;
    pub(crate) fn jeihpal_hub_cell(hub: *mut Word, row: u16, col: u16, cell: *mut RawCell) -> i32;
    pub(crate) fn jeihpal_hub_row_cells(
        hub: *mut Word,
        row: u16,
        cells: *mut RawCell,
        capacity: usize,
        count: *mut usize,
        wrapped: *mut u8,
    ) -> i32;
    pub(crate) fn jeihpal_hub_row_text(
        hub: *mut Word,
        row: u16,
        to: *mut u8,
        capacity: usize,
        length: *mut usize,
    ) -> i32;
    pub(crate) fn jeihpal_hub_contents(
        hub: *mut Word,
        to: *mut u8,
        capacity: usize,
        length: *mut usize,
    ) -> i32;
    pub(crate) fn jeihpal_hub_close(hub: *mut Word);

    pub(crate) fn jeihpal_view_new(view: *mut Word, rows: u16, cols: u16) -> i32;
    pub(crate) fn jeihpal_view_new_within(
        view: *mut Word,
        rows: u16,
        cols: u16,
        most_cells: usize,
    ) -> i32;
    pub(crate) fn jeihpal_view_advance(view: *mut Word, bytes: *const u8, count: usize) -> i32;
    pub(crate) fn jeihpal_view_stop(view: *mut Word) -> i32;
    pub(crate) fn jeihpal_view_held(view: *mut Word, count: *mut usize) -> i32;
    pub(crate) fn jeihpal_view_look(view: *mut Word, look: *mut RawLook) -> i32;
    pub(crate) fn jeihpal_view_cell(view: *mut Word, row: u16, col: u16, cell: *mut RawCell)
        -> i32;
    pub(crate) fn jeihpal_view_row_cells(
        view: *mut Word,
        row: u16,
        cells: *mut RawCell,
        capacity: usize,
        count: *mut usize,
        wrapped: *mut u8,
    ) -> i32;
    pub(crate) fn jeihpal_view_row_text(
        view: *mut Word,
        row: u16,
        to: *mut u8,
        capacity: usize,
        length: *mut usize,
    ) -> i32;
    pub(crate) fn jeihpal_view_close(view: *mut Word);

    pub(crate) fn jeihpal_filter_new(filter: *mut Word) -> i32;
    pub(crate) fn jeihpal_filter_pass(filter: *mut Word, bytes: *const u8, count: usize) -> i32;
    pub(crate) fn jeihpal_filter_given(
        filter: *mut Word,
        to: *mut u8,
        capacity: usize,
        length: *mut usize,
    ) -> i32;
    pub(crate) fn jeihpal_filter_close(filter: *mut Word);

    pub(crate) fn jeihpal_screen_new(
        screen: *mut Word,
        rows: u16,
        cols: u16,
        scrollback: usize,
    ) -> i32;
    pub(crate) fn jeihpal_screen_new_within(
        screen: *mut Word,
        rows: u16,
        cols: u16,
        scrollback: usize,
        most_cells: usize,
    ) -> i32;
    pub(crate) fn jeihpal_screen_process(screen: *mut Word, bytes: *const u8, count: usize) -> i32;
    pub(crate) fn jeihpal_screen_resize(screen: *mut Word, rows: u16, cols: u16) -> i32;
    pub(crate) fn jeihpal_screen_resize_within(
        screen: *mut Word,
        rows: u16,
        cols: u16,
        most_cells: usize,
    ) -> i32;
    pub(crate) fn jeihpal_screen_scroll(screen: *mut Word, rows: usize) -> i32;
    pub(crate) fn jeihpal_screen_look(screen: *mut Word, look: *mut RawLook) -> i32;
    pub(crate) fn jeihpal_screen_cell(
        screen: *mut Word,
        row: u16,
        col: u16,
        cell: *mut RawCell,
    ) -> i32;
    pub(crate) fn jeihpal_screen_row_cells(
        screen: *mut Word,
        row: u16,
        cells: *mut RawCell,
        capacity: usize,
        count: *mut usize,
        wrapped: *mut u8,
    ) -> i32;
    pub(crate) fn jeihpal_screen_row_text(
        screen: *mut Word,
        row: u16,
        to: *mut u8,
        capacity: usize,
        length: *mut usize,
    ) -> i32;
    pub(crate) fn jeihpal_screen_contents(
        screen: *mut Word,
        to: *mut u8,
        capacity: usize,
        length: *mut usize,
    ) -> i32;
    pub(crate) fn jeihpal_screen_contents_between(
        screen: *mut Word,
        start_row: u16,
        start_col: u16,
        end_row: u16,
        end_col: u16,
        to: *mut u8,
        capacity: usize,
        length: *mut usize,
    ) -> i32;
    pub(crate) fn jeihpal_screen_contents_formatted(
        screen: *mut Word,
        to: *mut u8,
        capacity: usize,
        length: *mut usize,
    ) -> i32;
    pub(crate) fn jeihpal_screen_state(
        screen: *mut Word,
        to: *mut u8,
        capacity: usize,
        length: *mut usize,
    ) -> i32;
    pub(crate) fn jeihpal_screen_mark(screen: *mut Word) -> i32;
    pub(crate) fn jeihpal_screen_difference(
        screen: *mut Word,
        to: *mut u8,
        capacity: usize,
        length: *mut usize,
    ) -> i32;
    pub(crate) fn jeihpal_screen_tell(screen: *mut Word, unknown: u8, rows: u8) -> i32;
    pub(crate) fn jeihpal_screen_clone(screen: *mut Word, from: *mut Word) -> i32;
    pub(crate) fn jeihpal_screen_clone_visible(screen: *mut Word, from: *mut Word) -> i32;
    pub(crate) fn jeihpal_screen_clear_scrollback(screen: *mut Word) -> i32;
    pub(crate) fn jeihpal_screen_drawing(screen: *mut Word, drawing: *mut RawDrawing) -> i32;
    pub(crate) fn jeihpal_screen_contents_formatted_basic(
        screen: *mut Word,
        to: *mut u8,
        capacity: usize,
        length: *mut usize,
    ) -> i32;
    pub(crate) fn jeihpal_screen_input_mode_formatted(
        screen: *mut Word,
        to: *mut u8,
        capacity: usize,
        length: *mut usize,
    ) -> i32;
    pub(crate) fn jeihpal_screen_attributes_formatted(
        screen: *mut Word,
        to: *mut u8,
        capacity: usize,
        length: *mut usize,
    ) -> i32;
    pub(crate) fn jeihpal_screen_cursor_state_formatted(
        screen: *mut Word,
        to: *mut u8,
        capacity: usize,
        length: *mut usize,
    ) -> i32;
    pub(crate) fn jeihpal_screen_rows_formatted(
        screen: *mut Word,
        start: u16,
        width: u16,
        to: *mut u8,
        capacity: usize,
        length: *mut usize,
        lengths: *mut usize,
        most: usize,
        rows: *mut usize,
    ) -> i32;
    pub(crate) fn jeihpal_screen_contents_diff(
        screen: *mut Word,
        earlier: *mut Word,
        to: *mut u8,
        capacity: usize,
        length: *mut usize,
    ) -> i32;
    pub(crate) fn jeihpal_screen_state_diff(
        screen: *mut Word,
        earlier: *mut Word,
        to: *mut u8,
        capacity: usize,
        length: *mut usize,
    ) -> i32;
    pub(crate) fn jeihpal_screen_input_mode_diff(
        screen: *mut Word,
        earlier: *mut Word,
        to: *mut u8,
        capacity: usize,
        length: *mut usize,
    ) -> i32;
    pub(crate) fn jeihpal_screen_rows_diff(
        screen: *mut Word,
        earlier: *mut Word,
        start: u16,
        width: u16,
        to: *mut u8,
        capacity: usize,
        length: *mut usize,
        lengths: *mut usize,
        most: usize,
        rows: *mut usize,
    ) -> i32;
    pub(crate) fn jeihpal_screen_request(
        screen: *mut Word,
        to: *mut u8,
        capacity: usize,
        request: *mut RawRequest,
    ) -> i32;
    pub(crate) fn jeihpal_screen_close(screen: *mut Word);

    pub(crate) fn jeihpal_recording_open(
        recording: *mut Word,
        bytes: *const u8,
        count: usize,
    ) -> i32;
    pub(crate) fn jeihpal_recording_open_script(
        recording: *mut Word,
        output: *const u8,
        count: usize,
        timing: *const u8,
        timing_count: usize,
    ) -> i32;
    pub(crate) fn jeihpal_recording_look(recording: *mut Word, look: *mut RawRecorded) -> i32;
    pub(crate) fn jeihpal_recording_event(
        recording: *mut Word,
        index: usize,
        event: *mut RawEvent,
    ) -> i32;
    pub(crate) fn jeihpal_recording_event_text(
        recording: *mut Word,
        index: usize,
        to: *mut u8,
        capacity: usize,
        length: *mut usize,
    ) -> i32;
    pub(crate) fn jeihpal_recording_colors(
        recording: *mut Word,
        colors: *mut u32,
        most: usize,
        count: *mut usize,
    ) -> i32;
    pub(crate) fn jeihpal_recording_screen(
        recording: *mut Word,
        screen: *mut Word,
        rows: u16,
        cols: u16,
        scrollback: usize,
        time: u64,
    ) -> i32;
    pub(crate) fn jeihpal_recording_close(recording: *mut Word);
}

#[cfg(test)]
mod tests {
    use super::*;
    use std::mem::{offset_of, size_of};

    macro_rules! said {
        ($name:literal, $kind:ty, $($field:ident: $field_kind:ty),*) => {{
            let sizes = [$((stringify!($field), offset_of!($kind, $field), size_of::<$field_kind>())),*];
            let fields = sizes.map(|(field, at, size)| format!("{}.{field} {at} {size}\n", $name));
            format!("{} {}\n", $name, size_of::<$kind>()) + &fields.concat()
        }};
    }

    /// The structs are as the C compiler has them: the file that `JEIHPAL_SIZES` names says how.
    #[test]
    fn sizes() {
        let Ok(path) = std::env::var("JEIHPAL_SIZES") else {
            return;
        };
        let mut found = format!("hub {}\n", size_of::<Word>());
        found += &said!("color", RawColor, kind: u8, red_or_index: u8, green: u8, blue: u8);
        found += &said!("cell", RawCell, text: [u8; 32], length: u8, width: u8, attributes: u8, reserved: u8,
            foreground: RawColor, background: RawColor);
        found += &said!("drawing", RawDrawing, foreground: RawColor, background: RawColor, bold: u8, dim: u8,
            italic: u8, underlined: u8, inverse: u8);
        found += &said!("look", RawLook, kept: usize, scrolled: usize, rows: u16, cols: u16, row: u16, col: u16,
            hidden: u8, style: u8, mouse: u8, encoding: u8, keypad: u8, cursor_keys: u8, paste: u8, alternate: u8,
            updating: u8, failed: u8);
        found += &said!("request", RawRequest, length: usize, letters: usize, dropped: usize, rows: u16, cols: u16,
            kind: u8);
        found += &said!("recorded", RawRecorded, events: usize, length: u64, place: u64, rows: u16, cols: u16, kind: u8,
            fault: u8);
        found +=
            &said!("event", RawEvent, time: u64, length: usize, rows: u16, cols: u16, kind: u8);
        assert_eq!(found, std::fs::read_to_string(path).unwrap());
    }
}
