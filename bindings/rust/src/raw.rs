//! The structs and calls of redisplay.h as they stand there.
use std::ffi::c_void;

/// A session of the library's; all zero it is closed.
#[repr(C)]
#[derive(Debug)]
pub(crate) struct Slot {
    pub is_open: bool,
    pub at: *mut c_void,
}

/// The first bad line of a data file: which file, its line from 1, and what is wrong.
#[repr(C)]
#[derive(Clone, Copy, Debug, Default, PartialEq, Eq)]
pub struct BadData {
    pub file: u32,
    pub line: u32,
    pub kind: u32,
}

/// How a redisplay ended, and how many rows it sent.
#[repr(C)]
#[derive(Clone, Copy, Debug, Default, PartialEq, Eq)]
pub struct Shown {
    pub status: u32,
    pub rows: u32,
}

/// The look of a cell.
#[repr(C)]
#[derive(Clone, Copy, Debug, PartialEq, Eq)]
pub struct Face {
    size: u32,
    /// 0 to 7, or [`crate::NONE`].
    pub foreground: u32,
    pub background: u32,
    pub bold: bool,
    pub underline: bool,
    pub inverse: bool,
    reserved: bool,
}

impl Default for Face {
    /// The plain face.
    fn default() -> Face {
        Face {
            size: std::mem::size_of::<Face>() as u32,
            foreground: crate::NONE,
            background: crate::NONE,
            bold: false,
            underline: false,
            inverse: false,
            reserved: false,
        }
    }
}

/// A row and a column from 0, or a count of each.
#[repr(C)]
#[derive(Clone, Copy, Debug, Default, PartialEq, Eq)]
pub struct Place {
    pub row: u32,
    pub column: u32,
}

/// A window: its rectangle on the frame, its start, point, and the row and the column of its text where point is shown.
#[repr(C)]
#[derive(Clone, Copy, Debug, Default, PartialEq, Eq)]
pub struct Window {
    pub number: u32,
    pub buffer: u32,
    pub row: u32,
    pub column: u32,
    pub height: u32,
    pub width: u32,
    pub start: u32,
    pub start_row: u32,
    pub point: u32,
    /// [`crate::NONE`] where no row shows point.
    pub cursor_row: u32,
    pub cursor_column: u32,
    pub selected: bool,
}

/// A cell of the screen.
#[repr(C)]
#[derive(Clone, Copy, Debug, Default, PartialEq, Eq)]
pub struct Cell {
    /// The character; 32 of a blank cell, 0 of a later column of a character.
    pub code: u32,
    pub marks: [u32; 6],
    pub mark_count: u8,
    pub width: u8,
    /// 0 of a blank, 1 of the first column of a character, 2 of a later one.
    pub part: u8,
    reserved: u8,
    pub face: Face,
}

/// What stands under a cell of the frame: a part (0 text, 1 margin, 2 mode line, 3 border, 4 echo area), and where in it.
#[repr(C)]
#[derive(Clone, Copy, Debug, Default, PartialEq, Eq)]
pub struct Spot {
    pub part: u32,
    pub window: u32,
    pub position: u32,
    pub row: u32,
    pub column: u32,
}

/// How far a text was given.
#[repr(C)]
#[derive(Clone, Copy, Debug, Default)]
pub(crate) struct Given {
    pub bytes: usize,
    pub next: u32,
}

extern "C" {
    pub(crate) fn redisplay_open(
        session: *mut Slot,
        classes: *const u8,
        classes_length: usize,
        mirrors: *const u8,
        mirrors_length: usize,
        brackets: *const u8,
        brackets_length: usize,
        bad: *mut BadData,
    ) -> u32;
    pub(crate) fn redisplay_open_unicode(session: *mut Slot) -> u32;
    pub(crate) fn redisplay_close(session: *mut Slot);
    pub(crate) fn redisplay_line(session: *mut Slot, line: *const u8, length: usize) -> Shown;

    pub(crate) fn redisplay_frame(session: *mut Slot, width: u32, height: u32) -> u32;
    pub(crate) fn redisplay_buffer(session: *mut Slot, name: *const u8, length: usize) -> u32;
    pub(crate) fn redisplay_insert(session: *mut Slot, buffer: u32, position: u32, text: *const u8, length: usize) -> u32;
    pub(crate) fn redisplay_type(session: *mut Slot, text: *const u8, length: usize) -> u32;
    pub(crate) fn redisplay_delete(session: *mut Slot, buffer: u32, from: u32, to: u32) -> u32;
    pub(crate) fn redisplay_narrow(session: *mut Slot, buffer: u32, from: u32, to: u32) -> u32;
    pub(crate) fn redisplay_widen(session: *mut Slot, buffer: u32) -> u32;
    pub(crate) fn redisplay_setting(session: *mut Slot, buffer: u32, setting: u32, value: u32) -> u32;

    pub(crate) fn redisplay_put(session: *mut Slot, buffer: u32, from: u32, to: u32, kind: u32, value: u32) -> u32;
    pub(crate) fn redisplay_overlay(session: *mut Slot, buffer: u32, from: u32, to: u32, priority: i32, front: bool, rear: bool) -> u32;
    pub(crate) fn redisplay_overlay_move(session: *mut Slot, buffer: u32, overlay: u32, from: u32, to: u32) -> u32;
    pub(crate) fn redisplay_overlay_put(session: *mut Slot, buffer: u32, overlay: u32, kind: u32, value: u32) -> u32;
    pub(crate) fn redisplay_overlay_drop(session: *mut Slot, buffer: u32, overlay: u32) -> u32;

    pub(crate) fn redisplay_add_face(session: *mut Slot, face: *const Face) -> u32;
    pub(crate) fn redisplay_add_string(session: *mut Slot, text: *const u8, length: usize) -> u32;

    pub(crate) fn redisplay_split(session: *mut Slot, window: u32, side: u32, size: u32) -> u32;
    pub(crate) fn redisplay_remove(session: *mut Slot, window: u32) -> u32;
    pub(crate) fn redisplay_select(session: *mut Slot, window: u32) -> u32;
    pub(crate) fn redisplay_show(session: *mut Slot, window: u32, buffer: u32) -> u32;
    pub(crate) fn redisplay_point(session: *mut Slot, window: u32, position: u32) -> u32;
    pub(crate) fn redisplay_start(session: *mut Slot, window: u32, position: u32, row: u32) -> u32;
    pub(crate) fn redisplay_scroll(session: *mut Slot, window: u32, rows: i32) -> u32;
    pub(crate) fn redisplay_hscroll(session: *mut Slot, window: u32, columns: u32) -> u32;
    pub(crate) fn redisplay_wrap(session: *mut Slot, window: u32, mode: u32) -> u32;
    pub(crate) fn redisplay_mode_line(session: *mut Slot, window: u32, format: *const u8, length: usize) -> u32;
    pub(crate) fn redisplay_no_mode_line(session: *mut Slot, window: u32) -> u32;
    pub(crate) fn redisplay_margin(session: *mut Slot, window: u32, numbers: u32, strings: u32) -> u32;
    pub(crate) fn redisplay_scrolling(session: *mut Slot, margin: u32, conservatively: u32) -> u32;
    pub(crate) fn redisplay_echo(session: *mut Slot, text: *const u8, length: usize) -> u32;
    pub(crate) fn redisplay_shift(session: *mut Slot, on: bool) -> u32;
    pub(crate) fn redisplay_go(session: *mut Slot, window: u32, side: u32) -> u32;
    pub(crate) fn redisplay_hit(session: *mut Slot, window: u32, row: u32, column: u32) -> u32;

    pub(crate) fn redisplay_update(session: *mut Slot) -> Shown;
    pub(crate) fn redisplay_update_rows(session: *mut Slot, rows: u32) -> Shown;
    pub(crate) fn redisplay_pending(session: *mut Slot) -> usize;
    pub(crate) fn redisplay_fetch(session: *mut Slot, out: *mut u8, room: usize) -> usize;

    pub(crate) fn redisplay_fault(session: *mut Slot) -> u32;
    pub(crate) fn redisplay_fault_text(session: *mut Slot, out: *mut u8, room: usize) -> usize;

    pub(crate) fn redisplay_get_frame(session: *mut Slot, size: *mut Place) -> u32;
    pub(crate) fn redisplay_get_cursor(session: *mut Slot, place: *mut Place) -> u32;
    pub(crate) fn redisplay_get_windows(session: *mut Slot, count: *mut u32) -> u32;
    pub(crate) fn redisplay_get_window(session: *mut Slot, index: u32, window: *mut Window) -> u32;
    pub(crate) fn redisplay_get_selected(session: *mut Slot, window: *mut u32) -> u32;
    pub(crate) fn redisplay_get_buffers(session: *mut Slot, count: *mut u32) -> u32;
    pub(crate) fn redisplay_get_buffer_name(session: *mut Slot, buffer: u32, out: *mut u8, room: usize, length: *mut usize) -> u32;
    pub(crate) fn redisplay_get_length(session: *mut Slot, buffer: u32, length: *mut u32) -> u32;
    pub(crate) fn redisplay_get_text(
        session: *mut Slot,
        buffer: u32,
        from: u32,
        to: u32,
        out: *mut u8,
        room: usize,
        given: *mut Given,
    ) -> u32;
    pub(crate) fn redisplay_get_row(session: *mut Slot, row: u32, cells: *mut Cell, room: usize, count: *mut usize) -> u32;
    pub(crate) fn redisplay_get_row_text(session: *mut Slot, row: u32, out: *mut u8, room: usize, length: *mut usize) -> u32;
    pub(crate) fn redisplay_get_under(session: *mut Slot, row: u32, column: u32, spot: *mut Spot) -> u32;
}
