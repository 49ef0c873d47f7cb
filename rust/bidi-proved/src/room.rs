//! Rooms: memory for texts and for the layout of the last one.
use crate::error::{check, Error};
use crate::ffi;
use crate::layout::{Layout, Text};
use crate::numbers::{Direction, Limits};
use crate::tables::Tables;
use std::cell::UnsafeCell;

/// Memory for texts of up to a number of code units, 128 bytes for each, and for the layout of the last one.
///
/// Laying out takes no memory of the library beyond it. Whoever lays out many texts makes one room for each thread.
#[derive(Debug)]
pub struct Room {
    handle: UnsafeCell<ffi::bidi_room>,
}

// SAFETY: a handle may move to another thread between calls (bidi.h). Each call takes a reference to a `Room`, which
// is not `Sync`, so no two calls are made at once.
unsafe impl Send for Room {}

/// A call of the library that lays out a text in units `U`.
type Call<U> = unsafe extern "C" fn(
    *mut ffi::bidi_room,
    *const ffi::bidi_tables,
    *const U,
    usize,
    u32,
    *const usize,
    usize,
    ffi::bidi_limits,
    *mut u64,
) -> u32;

/// How a text is laid out.
struct Way<'w> {
    tables: &'w Tables,
    direction: Direction,
    breaks: &'w [usize],
    limits: Limits,
}

impl Room {
    /// Makes a room for texts of up to `size` code units: bytes of UTF-8, or 16-bit units of UTF-16.
    ///
    /// Fails with `TooBig` above 16,777,216, or with `Memory`.
    pub fn new(size: usize) -> Result<Self, Error> {
        let room = Self { handle: UnsafeCell::new(ffi::bidi_room::NONE) };
        // SAFETY: the handle begins as `BIDI_NONE`, and only calls of the library change it.
        check(unsafe { ffi::bidi_room_new_encoded(size, room.handle()) }, 0)?;
        Ok(room)
    }

    /// Returns the size that the room was made with.
    pub fn size(&self) -> usize {
        // SAFETY: the handle is valid.
        unsafe { ffi::bidi_room_size(self.handle()) }
    }

    /// Lays out a text (P1 to L2). Lines begin at its start, after each paragraph separator, and at each of `breaks`:
    /// rising offsets above 0 and below its length, at each of which a character begins.
    ///
    /// Fails with `TooLong`, `BreakOutOfRange`, `BreakNotRising` or `BreakInside`.
    pub fn lay_out<'a>(
        &'a mut self,
        text: &'a str,
        tables: &Tables,
        direction: Direction,
        breaks: &[usize],
    ) -> Result<Layout<'a, str>, Error> {
        self.lay_out_with(text, tables, direction, breaks, Limits::default())
    }

    /// Lays out a text as `lay_out` does, within these limits.
    ///
    /// Fails with `Depth` or `Brackets`, or as `lay_out` does.
    pub fn lay_out_with<'a>(
        &'a mut self,
        text: &'a str,
        tables: &Tables,
        direction: Direction,
        breaks: &[usize],
        limits: Limits,
    ) -> Result<Layout<'a, str>, Error> {
        let way = Way { tables, direction, breaks, limits };
        self.lay_out_by(ffi::bidi_lay_out_utf8_with, text.as_bytes(), text, &way)
    }

    /// Lays out bytes as `lay_out` does, and reads U+FFFD where they are not UTF-8, as `String::from_utf8_lossy` does.
    pub fn lay_out_utf8_lossy<'a>(
        &'a mut self,
        text: &'a [u8],
        tables: &Tables,
        direction: Direction,
        breaks: &[usize],
    ) -> Result<Layout<'a, [u8]>, Error> {
        self.lay_out_utf8_lossy_with(text, tables, direction, breaks, Limits::default())
    }

    /// Lays out bytes as `lay_out_utf8_lossy` does, within these limits.
    pub fn lay_out_utf8_lossy_with<'a>(
        &'a mut self,
        text: &'a [u8],
        tables: &Tables,
        direction: Direction,
        breaks: &[usize],
        limits: Limits,
    ) -> Result<Layout<'a, [u8]>, Error> {
        let way = Way { tables, direction, breaks, limits };
        self.lay_out_by(ffi::bidi_lay_out_utf8_lossy_with, text, text, &way)
    }

    /// Lays out UTF-16 as `lay_out` does a `str`; breaks are offsets of 16-bit units.
    ///
    /// Fails with `IllFormed` at a lone surrogate, or as `lay_out` does.
    pub fn lay_out_utf16<'a>(
        &'a mut self,
        text: &'a [u16],
        tables: &Tables,
        direction: Direction,
        breaks: &[usize],
    ) -> Result<Layout<'a, [u16]>, Error> {
        self.lay_out_utf16_with(text, tables, direction, breaks, Limits::default())
    }

    /// Lays out UTF-16 as `lay_out_utf16` does, within these limits.
    pub fn lay_out_utf16_with<'a>(
        &'a mut self,
        text: &'a [u16],
        tables: &Tables,
        direction: Direction,
        breaks: &[usize],
        limits: Limits,
    ) -> Result<Layout<'a, [u16]>, Error> {
        let way = Way { tables, direction, breaks, limits };
        self.lay_out_by(ffi::bidi_lay_out_utf16_with, text, text, &way)
    }

    /// Lays out UTF-16 as `lay_out_utf16` does, and reads U+FFFD for each lone surrogate.
    pub fn lay_out_utf16_lossy<'a>(
        &'a mut self,
        text: &'a [u16],
        tables: &Tables,
        direction: Direction,
        breaks: &[usize],
    ) -> Result<Layout<'a, [u16]>, Error> {
        self.lay_out_utf16_lossy_with(text, tables, direction, breaks, Limits::default())
    }

    /// Lays out UTF-16 as `lay_out_utf16_lossy` does, within these limits.
    pub fn lay_out_utf16_lossy_with<'a>(
        &'a mut self,
        text: &'a [u16],
        tables: &Tables,
        direction: Direction,
        breaks: &[usize],
        limits: Limits,
    ) -> Result<Layout<'a, [u16]>, Error> {
        let way = Way { tables, direction, breaks, limits };
        self.lay_out_by(ffi::bidi_lay_out_utf16_lossy_with, text, text, &way)
    }

    /// Lays out a text, whose units are `units`, by a call of the library.
    fn lay_out_by<'a, U, T: Text + ?Sized>(
        &'a mut self,
        call: Call<U>,
        units: &[U],
        text: &'a T,
        way: &Way<'_>,
    ) -> Result<Layout<'a, T>, Error> {
        let mut place = 0;
        // SAFETY: both handles are valid, each pointer comes with its slice's length, and `place` takes one number.
        let status = unsafe {
            call(
                self.handle(),
                way.tables.handle(),
                units.as_ptr(),
                units.len(),
                way.direction as u32,
                way.breaks.as_ptr(),
                way.breaks.len(),
                way.limits.for_call(),
                &mut place,
            )
        };
        check(status, place)?;
        Ok(Layout::new(self, text))
    }

    /// Returns the handle, for a call while the room is borrowed.
    pub(crate) fn handle(&self) -> *mut ffi::bidi_room {
        self.handle.get()
    }
}

impl Drop for Room {
    fn drop(&mut self) {
        // SAFETY: the handle is valid, and no call follows.
        unsafe { ffi::bidi_room_free(self.handle()) }
    }
}
