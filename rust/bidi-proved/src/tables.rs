//! Tables: the class, the bracket and the mirrored character of each character.
use crate::error::{check, check_files, Error};
use crate::ffi;
use crate::numbers::{Bracket, Class, Direction, Level};

/// The classes, brackets and mirrored characters of one edition of Unicode.
///
/// Any number of threads use them at once. [`share`](Tables::share) returns the same tables with a lifetime of their
/// own.
#[derive(Debug)]
pub struct Tables {
    handle: ffi::bidi_tables,
}

// SAFETY: a handle may move to another thread between calls (bidi.h).
unsafe impl Send for Tables {}

// SAFETY: each call that takes a `&Tables` passes its handle as `const`, and any number of such calls may run at once
// (bidi.h).
unsafe impl Sync for Tables {}

/// Calls of the library that say something of a text in units `U`: the level of its first paragraph, that of each, and
/// whether it stays at level 0.
type LevelCall<U> = unsafe extern "C" fn(*const ffi::bidi_tables, *const U, usize, u32, *mut u8, *mut u64) -> u32;
type LevelsCall<U> =
    unsafe extern "C" fn(*const ffi::bidi_tables, *const U, usize, u32, *mut u8, usize, *mut usize, *mut u64) -> u32;
type StaysCall<U> = unsafe extern "C" fn(*const ffi::bidi_tables, *const U, usize, *mut u8, *mut u64) -> u32;

impl Tables {
    /// Returns the tables that are built into the library. They are constants: nothing is read, and memory is taken for
    /// a handle alone.
    ///
    /// Fails with `Memory`.
    pub fn standard() -> Result<Self, Error> {
        let mut tables = Self::none();
        // SAFETY: the handle begins as `BIDI_NONE`, and only calls of the library change it.
        check(unsafe { ffi::bidi_tables_standard(&mut tables.handle) }, 0)?;
        Ok(tables)
    }

    /// Reads tables from the contents of DerivedBidiClass.txt, BidiBrackets.txt and BidiMirroring.txt of one edition.
    ///
    /// Fails with `ClassFile`, `BracketFile` or `MirrorFile`, or with `Memory`.
    pub fn read(classes: &[u8], brackets: &[u8], mirrors: &[u8]) -> Result<Self, Error> {
        let (mut tables, mut fault) = (Self::none(), ffi::bidi_fault::default());
        // SAFETY: as in `standard`; each pointer comes with its slice's length.
        let status = unsafe {
            ffi::bidi_tables_new(
                classes.as_ptr(),
                classes.len(),
                brackets.as_ptr(),
                brackets.len(),
                mirrors.as_ptr(),
                mirrors.len(),
                &mut tables.handle,
                &mut fault,
            )
        };
        check_files(status, fault)?;
        Ok(tables)
    }

    /// Returns the same tables with a lifetime of their own, at the cost of a handle.
    ///
    /// Fails with `Memory`.
    pub fn share(&self) -> Result<Self, Error> {
        let mut shared = Self::none();
        // SAFETY: both handles are valid, and they are two.
        check(unsafe { ffi::bidi_tables_share(self.handle(), &mut shared.handle) }, 0)?;
        Ok(shared)
    }

    /// Returns the mirrored character of a character (L4), or the character itself if it has none.
    pub fn mirror(&self, character: char) -> char {
        // SAFETY: the handle is valid.
        let code = unsafe { ffi::bidi_mirror(self.handle(), character.into()) };
        char::from_u32(code).unwrap_or(character)
    }

    /// Returns the class of a character.
    ///
    /// Fails only with `Unknown`.
    pub fn class(&self, character: char) -> Result<Class, Error> {
        let mut number = 0;
        // SAFETY: the handle is valid, and `number` takes one byte.
        check(unsafe { ffi::bidi_class(self.handle(), character.into(), &mut number) }, 0)?;
        Class::of(number)
    }

    /// Returns what a character does as a bracket (BD14, BD15), or `None` if it is not a bracket.
    ///
    /// Fails only with `Unknown`.
    pub fn bracket(&self, character: char) -> Result<Option<Bracket>, Error> {
        let mut number = 0;
        // SAFETY: the handle is valid, and `number` takes one byte.
        check(unsafe { ffi::bidi_bracket(self.handle(), character.into(), &mut number) }, 0)?;
        match number.into() {
            ffi::BIDI_NO_BRACKET => Ok(None),
            _ => Bracket::of(number).map(Some),
        }
    }

    /// Returns the level of the first paragraph of a text (P1 to P3), 0 or 1, without a layout.
    ///
    /// Fails only with `Unknown`.
    pub fn base_level(&self, text: &str, direction: Direction) -> Result<Level, Error> {
        self.level_by(ffi::bidi_base_level_utf8, text.as_bytes(), direction)
    }

    /// Returns what `base_level` does, of UTF-16.
    ///
    /// Fails with `IllFormed` at a lone surrogate.
    pub fn base_level_utf16(&self, text: &[u16], direction: Direction) -> Result<Level, Error> {
        self.level_by(ffi::bidi_base_level_utf16, text, direction)
    }

    /// Returns the level of each paragraph of a text (P1 to P3), in their order, without a layout.
    ///
    /// Fails only with `Unknown`.
    pub fn base_levels(&self, text: &str, direction: Direction) -> Result<Vec<Level>, Error> {
        self.levels_by(ffi::bidi_base_levels_utf8, text.as_bytes(), direction)
    }

    /// Returns what `base_levels` does, of UTF-16.
    ///
    /// Fails with `IllFormed` at a lone surrogate.
    pub fn base_levels_utf16(&self, text: &[u16], direction: Direction) -> Result<Vec<Level>, Error> {
        self.levels_by(ffi::bidi_base_levels_utf16, text, direction)
    }

    /// Says whether a text has only classes that stay at level 0: no R, AL or AN, and no initiator of an embedding, an
    /// override or an isolate. If so, a layout under `Ltr` or `Auto` has no other level.
    ///
    /// Fails only with `Unknown`.
    pub fn is_left_to_right(&self, text: &str) -> Result<bool, Error> {
        self.stays_by(ffi::bidi_is_left_to_right_utf8, text.as_bytes())
    }

    /// Says what `is_left_to_right` does, of UTF-16.
    ///
    /// Fails with `IllFormed` at a lone surrogate.
    pub fn is_left_to_right_utf16(&self, text: &[u16]) -> Result<bool, Error> {
        self.stays_by(ffi::bidi_is_left_to_right_utf16, text)
    }

    fn level_by<U>(&self, call: LevelCall<U>, text: &[U], direction: Direction) -> Result<Level, Error> {
        let (mut level, mut place) = (0, 0);
        // SAFETY: the handle is valid, the pointer comes with its length, and `level` and `place` take one item each.
        let status =
            unsafe { call(self.handle(), text.as_ptr(), text.len(), direction as u32, &mut level, &mut place) };
        check(status, place)?;
        Ok(Level::new(level))
    }

    fn levels_by<U>(&self, call: LevelsCall<U>, text: &[U], direction: Direction) -> Result<Vec<Level>, Error> {
        let (mut levels, mut count, mut place) = (vec![0; text.len()], 0, 0);
        let (at, capacity) = (levels.as_mut_ptr(), levels.len());
        // SAFETY: as in `level_by`; `levels` takes as many bytes as its length says.
        let status = unsafe {
            call(self.handle(), text.as_ptr(), text.len(), direction as u32, at, capacity, &mut count, &mut place)
        };
        check(status, place)?;
        Ok(levels[..count].iter().map(|level| Level::new(*level)).collect())
    }

    fn stays_by<U>(&self, call: StaysCall<U>, text: &[U]) -> Result<bool, Error> {
        let (mut stays, mut place) = (0, 0);
        // SAFETY: as in `level_by`.
        let status = unsafe { call(self.handle(), text.as_ptr(), text.len(), &mut stays, &mut place) };
        check(status, place)?;
        Ok(stays == 1)
    }

    /// Returns the handle, for a call while the tables are borrowed.
    pub(crate) fn handle(&self) -> *const ffi::bidi_tables {
        &self.handle
    }

    fn none() -> Self {
        Self { handle: ffi::bidi_tables::NONE }
    }
}

impl Drop for Tables {
    fn drop(&mut self) {
        // SAFETY: the handle is valid, and no call follows.
        unsafe { ffi::bidi_tables_free(&mut self.handle) }
    }
}
