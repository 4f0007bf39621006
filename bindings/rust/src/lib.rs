//! The redisplay engine as a safe session over its library for C. What a call does, its units and its refusals stand in redisplay.h and,
//! of an op, in docs/OPS.md. A call that is refused has changed nothing. `Drop` closes the session, which is of one thread.
mod raw;

pub use raw::{BadData, Cell, Face, Place, Shown, Spot, Window};
use raw::{Given, Slot};
use std::fmt;

/// No value: a property, a colour, a string or a table is taken away; of a cursor or a position, that there is none.
pub const NONE: u32 = u32::MAX;

/// How a call ended.
#[derive(Clone, Copy, Debug, PartialEq, Eq)]
pub struct Status(pub u32);

impl Status {
    pub const DONE: Status = Status(0);
    pub const NOT_OPEN: Status = Status(1);
    pub const IS_OPEN: Status = Status(2);
    pub const NO_MEMORY: Status = Status(3);
    pub const STOPPED: Status = Status(4);
    pub const BAD_DATA: Status = Status(5);
    pub const NOT_THERE: Status = Status(6);
    pub const BAD_TEXT: Status = Status(7);
    pub const BAD_ARGUMENT: Status = Status(8);
    pub const NOT_JSON: Status = Status(16);
    pub const NOT_OBJECT: Status = Status(17);
    pub const NO_SUCH_OP: Status = Status(18);
    pub const MISSING: Status = Status(19);
    pub const BAD_FIELD: Status = Status(20);
    pub const EXTRA: Status = Status(21);
    pub const TOO_LONG: Status = Status(22);
    pub const NO_BUFFER: Status = Status(32);
    pub const NO_WINDOW: Status = Status(33);
    pub const NO_OVERLAY: Status = Status(34);
    pub const NO_OBJECT: Status = Status(35);
    pub const OUT_OF_RANGE: Status = Status(36);
    pub const NAME_TAKEN: Status = Status(37);
    pub const TEXT_TOO_LARGE: Status = Status(38);
    pub const OBJECT_TOO_LONG: Status = Status(39);
    pub const TOO_MANY_BUFFERS: Status = Status(40);
    pub const TOO_MANY_WINDOWS: Status = Status(41);
    pub const TOO_MANY_OVERLAYS: Status = Status(42);
    pub const TOO_MANY_OBJECTS: Status = Status(43);
    pub const TOO_SMALL: Status = Status(44);
    pub const LAST_WINDOW: Status = Status(45);
    pub const BAD_FORMAT: Status = Status(46);
    pub const NOT_SHOWN: Status = Status(47);
}

impl fmt::Display for Status {
    fn fmt(&self, out: &mut fmt::Formatter<'_>) -> fmt::Result {
        write!(out, "the call ended with status {}", self.0)
    }
}

impl std::error::Error for Status {}

/// Why a session was not opened.
#[derive(Clone, Copy, Debug, PartialEq, Eq)]
pub enum OpenError {
    NoMemory,
    BadData(BadData),
}

/// Sides of `split`; of `go` Right and Left.
#[derive(Clone, Copy, Debug, PartialEq, Eq)]
pub enum Side {
    Below = 0,
    Right = 1,
    Left = 2,
}

/// What becomes of lines longer than a row.
#[derive(Clone, Copy, Debug, PartialEq, Eq)]
pub enum Wrap {
    Truncate = 0,
    Continue = 1,
    Word = 2,
}

/// Kinds of properties; Before and After of overlays alone.
#[derive(Clone, Copy, Debug, PartialEq, Eq)]
pub enum Kind {
    Face = 0,
    Display = 1,
    Invisible = 2,
    LinePrefix = 3,
    WrapPrefix = 4,
    Before = 5,
    After = 6,
}

/// Settings of a buffer.
#[derive(Clone, Copy, Debug, PartialEq, Eq)]
pub enum Setting {
    TabWidth = 0,
    CtlArrow = 1,
    Direction = 2,
    Reorder = 3,
    Table = 4,
    LinePrefix = 5,
    WrapPrefix = 6,
    Modified = 7,
    ReadOnly = 8,
}

/// A session. Its pointer makes it neither `Send` nor `Sync`.
#[derive(Debug)]
pub struct Session {
    slot: Slot,
}

impl Drop for Session {
    fn drop(&mut self) {
        // SAFETY: the slot was opened here, and is never copied.
        unsafe { raw::redisplay_close(&mut self.slot) }
    }
}

fn done(status: u32) -> Result<(), Status> {
    if Status(status) == Status::DONE {
        Ok(())
    } else {
        Err(Status(status))
    }
}

fn done_or_stopped(shown: Shown) -> Result<Shown, Status> {
    if Status(shown.status) == Status::STOPPED {
        Ok(shown)
    } else {
        done(shown.status).map(|()| shown)
    }
}

// SAFETY of each `unsafe` below: the declarations are those of the header, the slot is open and in one call at a time by `&mut`, each
// pointer and length are those of one slice, and what is filled lives until the call is back.
impl Session {
    fn closed() -> Session {
        Session { slot: Slot { is_open: false, at: std::ptr::null_mut() } }
    }

    fn opened(self, status: u32, bad: BadData) -> Result<Session, OpenError> {
        match Status(status) {
            Status::DONE => Ok(self),
            Status::BAD_DATA => Err(OpenError::BadData(bad)),
            _ => Err(OpenError::NoMemory),
        }
    }

    /// Opens a session over the bytes of Unicode's data files; empty slices stand for empty files.
    pub fn open(classes: &[u8], mirrors: &[u8], brackets: &[u8]) -> Result<Session, OpenError> {
        let (mut session, mut bad) = (Session::closed(), BadData::default());
        let status = unsafe {
            raw::redisplay_open(
                &mut session.slot,
                classes.as_ptr(),
                classes.len(),
                mirrors.as_ptr(),
                mirrors.len(),
                brackets.as_ptr(),
                brackets.len(),
                &mut bad,
            )
        };
        session.opened(status, bad)
    }

    /// Opens a session over the data that are built in.
    pub fn open_unicode() -> Result<Session, OpenError> {
        let mut session = Session::closed();
        let status = unsafe { raw::redisplay_open_unicode(&mut session.slot) };
        session.opened(status, BadData::default())
    }

    /// Does what a line of JSON says, an op or a redisplay; a stopped redisplay is no refusal.
    pub fn line(&mut self, line: &str) -> Result<Shown, Status> {
        done_or_stopped(unsafe { raw::redisplay_line(&mut self.slot, line.as_ptr(), line.len()) })
    }

    /// Resizes the frame; the next redisplay paints all.
    pub fn frame(&mut self, width: u32, height: u32) -> Result<(), Status> {
        done(unsafe { raw::redisplay_frame(&mut self.slot, width, height) })
    }

    /// Makes an empty buffer; its number is the count of those before it.
    pub fn buffer(&mut self, name: &str) -> Result<(), Status> {
        done(unsafe { raw::redisplay_buffer(&mut self.slot, name.as_ptr(), name.len()) })
    }

    /// Puts a text in before a position.
    pub fn insert(&mut self, buffer: u32, position: u32, text: &str) -> Result<(), Status> {
        done(unsafe { raw::redisplay_insert(&mut self.slot, buffer, position, text.as_ptr(), text.len()) })
    }

    /// Puts a text in at the selected window's point, which moves behind it.
    pub fn type_text(&mut self, text: &str) -> Result<(), Status> {
        done(unsafe { raw::redisplay_type(&mut self.slot, text.as_ptr(), text.len()) })
    }

    /// Takes the positions from `from` to `to - 1` away.
    pub fn delete(&mut self, buffer: u32, from: u32, to: u32) -> Result<(), Status> {
        done(unsafe { raw::redisplay_delete(&mut self.slot, buffer, from, to) })
    }

    /// Makes a range the accessible part.
    pub fn narrow(&mut self, buffer: u32, from: u32, to: u32) -> Result<(), Status> {
        done(unsafe { raw::redisplay_narrow(&mut self.slot, buffer, from, to) })
    }

    /// Makes the whole text accessible.
    pub fn widen(&mut self, buffer: u32) -> Result<(), Status> {
        done(unsafe { raw::redisplay_widen(&mut self.slot, buffer) })
    }

    /// Sets a setting of a buffer.
    pub fn setting(&mut self, buffer: u32, setting: Setting, value: u32) -> Result<(), Status> {
        done(unsafe { raw::redisplay_setting(&mut self.slot, buffer, setting as u32, value) })
    }

    /// Gives a range a property, or with [`NONE`] takes it away.
    pub fn put(&mut self, buffer: u32, from: u32, to: u32, kind: Kind, value: u32) -> Result<(), Status> {
        done(unsafe { raw::redisplay_put(&mut self.slot, buffer, from, to, kind as u32, value) })
    }

    /// Makes an overlay; its number is the count of those made in the buffer before it.
    pub fn overlay(&mut self, buffer: u32, from: u32, to: u32, priority: i32, front: bool, rear: bool) -> Result<(), Status> {
        done(unsafe { raw::redisplay_overlay(&mut self.slot, buffer, from, to, priority, front, rear) })
    }

    /// Gives an overlay another range.
    pub fn overlay_move(&mut self, buffer: u32, overlay: u32, from: u32, to: u32) -> Result<(), Status> {
        done(unsafe { raw::redisplay_overlay_move(&mut self.slot, buffer, overlay, from, to) })
    }

    /// Gives an overlay a property, or with [`NONE`] takes it away.
    pub fn overlay_put(&mut self, buffer: u32, overlay: u32, kind: Kind, value: u32) -> Result<(), Status> {
        done(unsafe { raw::redisplay_overlay_put(&mut self.slot, buffer, overlay, kind as u32, value) })
    }

    /// Takes an overlay away.
    pub fn overlay_drop(&mut self, buffer: u32, overlay: u32) -> Result<(), Status> {
        done(unsafe { raw::redisplay_overlay_drop(&mut self.slot, buffer, overlay) })
    }

    /// Makes a face; its number is the count of those before it.
    pub fn add_face(&mut self, face: &Face) -> Result<(), Status> {
        done(unsafe { raw::redisplay_add_face(&mut self.slot, face) })
    }

    /// Makes a string; its number is the count of those before it.
    pub fn add_string(&mut self, text: &str) -> Result<(), Status> {
        done(unsafe { raw::redisplay_add_string(&mut self.slot, text.as_ptr(), text.len()) })
    }

    /// Splits a window, which keeps so many rows or columns; the new one's number is the count of windows made before it.
    pub fn split(&mut self, window: u32, side: Side, size: u32) -> Result<(), Status> {
        done(unsafe { raw::redisplay_split(&mut self.slot, window, side as u32, size) })
    }

    /// Takes a window away.
    pub fn remove(&mut self, window: u32) -> Result<(), Status> {
        done(unsafe { raw::redisplay_remove(&mut self.slot, window) })
    }

    /// Selects a window.
    pub fn select(&mut self, window: u32) -> Result<(), Status> {
        done(unsafe { raw::redisplay_select(&mut self.slot, window) })
    }

    /// Shows a buffer in a window.
    pub fn show(&mut self, window: u32, buffer: u32) -> Result<(), Status> {
        done(unsafe { raw::redisplay_show(&mut self.slot, window, buffer) })
    }

    /// Moves a window's point.
    pub fn point(&mut self, window: u32, position: u32) -> Result<(), Status> {
        done(unsafe { raw::redisplay_point(&mut self.slot, window, position) })
    }

    /// Forces a window's start: this row of the block that starts at a position.
    pub fn start(&mut self, window: u32, position: u32, row: u32) -> Result<(), Status> {
        done(unsafe { raw::redisplay_start(&mut self.slot, window, position, row) })
    }

    /// Scrolls by so many rows at the next redisplay; up its text where the number is below 0.
    pub fn scroll(&mut self, window: u32, rows: i32) -> Result<(), Status> {
        done(unsafe { raw::redisplay_scroll(&mut self.slot, window, rows) })
    }

    /// Scrolls sideways by so many columns from the edge.
    pub fn hscroll(&mut self, window: u32, columns: u32) -> Result<(), Status> {
        done(unsafe { raw::redisplay_hscroll(&mut self.slot, window, columns) })
    }

    /// Says what becomes of lines longer than a row.
    pub fn wrap(&mut self, window: u32, mode: Wrap) -> Result<(), Status> {
        done(unsafe { raw::redisplay_wrap(&mut self.slot, window, mode as u32) })
    }

    /// Gives a window a mode line.
    pub fn mode_line(&mut self, window: u32, format: &str) -> Result<(), Status> {
        done(unsafe { raw::redisplay_mode_line(&mut self.slot, window, format.as_ptr(), format.len()) })
    }

    /// Takes a window's mode line away.
    pub fn no_mode_line(&mut self, window: u32) -> Result<(), Status> {
        done(unsafe { raw::redisplay_no_mode_line(&mut self.slot, window) })
    }

    /// Gives a window margins of so many columns for line numbers and strings.
    pub fn margin(&mut self, window: u32, numbers: u32, strings: u32) -> Result<(), Status> {
        done(unsafe { raw::redisplay_margin(&mut self.slot, window, numbers, strings) })
    }

    /// Sets the scroll margin, and up to how many rows a view is scrolled to show point.
    pub fn scrolling(&mut self, margin: u32, conservatively: u32) -> Result<(), Status> {
        done(unsafe { raw::redisplay_scrolling(&mut self.slot, margin, conservatively) })
    }

    /// Shows a text in the echo area.
    pub fn echo(&mut self, text: &str) -> Result<(), Status> {
        done(unsafe { raw::redisplay_echo(&mut self.slot, text.as_ptr(), text.len()) })
    }

    /// Lets the terminal shift rows, or not.
    pub fn shift(&mut self, on: bool) -> Result<(), Status> {
        done(unsafe { raw::redisplay_shift(&mut self.slot, on) })
    }

    /// Moves point to the item beside it, as it is seen.
    pub fn go(&mut self, window: u32, side: Side) -> Result<(), Status> {
        done(unsafe { raw::redisplay_go(&mut self.slot, window, side as u32) })
    }

    /// Moves point to what the last layout shows in this row and column of the window's text.
    pub fn hit(&mut self, window: u32, row: u32, column: u32) -> Result<(), Status> {
        done(unsafe { raw::redisplay_hit(&mut self.slot, window, row, column) })
    }

    /// Redisplays; the terminal's bytes are pending then.
    pub fn update(&mut self) -> Result<Shown, Status> {
        done_or_stopped(unsafe { raw::redisplay_update(&mut self.slot) })
    }

    /// Redisplays up to so many rows.
    pub fn update_rows(&mut self, rows: u32) -> Result<Shown, Status> {
        done_or_stopped(unsafe { raw::redisplay_update_rows(&mut self.slot, rows) })
    }

    /// How many bytes are pending.
    pub fn pending(&mut self) -> usize {
        unsafe { raw::redisplay_pending(&mut self.slot) }
    }

    /// Moves the first pending bytes to a buffer, as many as it has room for, and answers how many.
    pub fn fetch(&mut self, out: &mut [u8]) -> usize {
        unsafe { raw::redisplay_fetch(&mut self.slot, out.as_mut_ptr(), out.len()) }
    }

    /// The status of the last op, line or redisplay.
    pub fn fault(&mut self) -> Status {
        Status(unsafe { raw::redisplay_fault(&mut self.slot) })
    }

    /// The same in the report's words.
    pub fn fault_text(&mut self) -> String {
        let mut out = [0; 256];
        let count = unsafe { raw::redisplay_fault_text(&mut self.slot, out.as_mut_ptr(), out.len()) };
        String::from_utf8_lossy(&out[..count]).into_owned()
    }

    /// The frame's rows and columns.
    pub fn get_frame(&mut self) -> Result<Place, Status> {
        let mut size = Place::default();
        done(unsafe { raw::redisplay_get_frame(&mut self.slot, &mut size) })?;
        Ok(size)
    }

    /// The screen's cursor.
    pub fn get_cursor(&mut self) -> Result<Place, Status> {
        let mut place = Place::default();
        done(unsafe { raw::redisplay_get_cursor(&mut self.slot, &mut place) })?;
        Ok(place)
    }

    /// How many windows there are.
    pub fn get_windows(&mut self) -> Result<u32, Status> {
        let mut count = 0;
        done(unsafe { raw::redisplay_get_windows(&mut self.slot, &mut count) })?;
        Ok(count)
    }

    /// A window by its place in leaf order, from 0.
    pub fn get_window(&mut self, index: u32) -> Result<Window, Status> {
        let mut window = Window::default();
        done(unsafe { raw::redisplay_get_window(&mut self.slot, index, &mut window) })?;
        Ok(window)
    }

    /// The number of the selected window.
    pub fn get_selected(&mut self) -> Result<u32, Status> {
        let mut window = 0;
        done(unsafe { raw::redisplay_get_selected(&mut self.slot, &mut window) })?;
        Ok(window)
    }

    /// How many buffers there are.
    pub fn get_buffers(&mut self) -> Result<u32, Status> {
        let mut count = 0;
        done(unsafe { raw::redisplay_get_buffers(&mut self.slot, &mut count) })?;
        Ok(count)
    }

    /// The name of a buffer.
    pub fn get_buffer_name(&mut self, buffer: u32) -> Result<String, Status> {
        let (mut out, mut length) = ([0; 256], 0);
        done(unsafe { raw::redisplay_get_buffer_name(&mut self.slot, buffer, out.as_mut_ptr(), out.len(), &mut length) })?;
        Ok(String::from_utf8_lossy(&out[..length]).into_owned())
    }

    /// How many characters a buffer has.
    pub fn get_length(&mut self, buffer: u32) -> Result<u32, Status> {
        let mut length = 0;
        done(unsafe { raw::redisplay_get_length(&mut self.slot, buffer, &mut length) })?;
        Ok(length)
    }

    /// The characters from `from` to `to - 1` as UTF-8, where a raw byte stands as itself.
    pub fn get_text(&mut self, buffer: u32, from: u32, to: u32) -> Result<Vec<u8>, Status> {
        let mut out = vec![0; 4 * to.saturating_sub(from) as usize];
        let mut given = Given::default();
        done(unsafe { raw::redisplay_get_text(&mut self.slot, buffer, from, to, out.as_mut_ptr(), out.len(), &mut given) })?;
        out.truncate(given.bytes);
        Ok(out)
    }

    /// The cells of a row of the screen.
    pub fn get_row(&mut self, row: u32) -> Result<Vec<Cell>, Status> {
        let mut cells = vec![Cell::default(); self.get_frame()?.column as usize];
        let mut count = 0;
        done(unsafe { raw::redisplay_get_row(&mut self.slot, row, cells.as_mut_ptr(), cells.len(), &mut count) })?;
        cells.truncate(count);
        Ok(cells)
    }

    /// The characters of a row of the screen, with their marks: at most 28 bytes a column.
    pub fn get_row_text(&mut self, row: u32) -> Result<String, Status> {
        let mut out = vec![0; 28 * self.get_frame()?.column as usize];
        let mut length = 0;
        done(unsafe { raw::redisplay_get_row_text(&mut self.slot, row, out.as_mut_ptr(), out.len(), &mut length) })?;
        Ok(String::from_utf8_lossy(&out[..length]).into_owned())
    }

    /// What stands under a cell of the frame; point stays.
    pub fn get_under(&mut self, row: u32, column: u32) -> Result<Spot, Status> {
        let mut spot = Spot::default();
        done(unsafe { raw::redisplay_get_under(&mut self.slot, row, column, &mut spot) })?;
        Ok(spot)
    }
}
