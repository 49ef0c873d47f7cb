//! The judge of the algorithm's two conformance files, BidiTest.txt and BidiCharacterTest.txt.
use crate::error::{check, Error};
use crate::ffi;
use crate::numbers::{numbered, Direction, Limits};
use crate::tables::Tables;
use std::cell::UnsafeCell;
use std::fmt;

/// A judge of one file, which takes the file in pieces of any length.
#[derive(Debug)]
pub struct Judge {
    handle: UnsafeCell<ffi::bidi_judge>,
}

// SAFETY: a handle may move to another thread between calls (bidi.h). Each call takes a reference to a `Judge`, which
// is not `Sync`, so no two calls are made at once.
unsafe impl Send for Judge {}

impl Judge {
    /// Makes a judge of a BidiTest.txt.
    ///
    /// Fails with `Memory`.
    pub fn classes() -> Result<Self, Error> {
        Self::classes_with(Limits::default())
    }

    /// Makes a judge of a BidiTest.txt that lays out within these limits.
    ///
    /// Fails with `Depth`, `Brackets` or `Memory`.
    pub fn classes_with(limits: Limits) -> Result<Self, Error> {
        // SAFETY: `made` passes a handle that is `BIDI_NONE`.
        Self::made(|judge| unsafe { ffi::bidi_judge_new_classes_with(judge, limits.for_call()) })
    }

    /// Makes a judge of a BidiCharacterTest.txt by tables, which it shares.
    ///
    /// Fails with `Memory`.
    pub fn characters(tables: &Tables) -> Result<Self, Error> {
        Self::characters_with(tables, Limits::default())
    }

    /// Makes a judge of a BidiCharacterTest.txt by tables that lays out within these limits.
    ///
    /// Fails with `Depth`, `Brackets` or `Memory`.
    pub fn characters_with(tables: &Tables, limits: Limits) -> Result<Self, Error> {
        // SAFETY: the handle of the tables is valid, and `made` passes a handle that is `BIDI_NONE`.
        Self::made(|judge| unsafe { ffi::bidi_judge_new_characters_with(tables.handle(), judge, limits.for_call()) })
    }

    fn made(make: impl FnOnce(*mut ffi::bidi_judge) -> u32) -> Result<Self, Error> {
        let judge = Self { handle: UnsafeCell::new(ffi::bidi_judge::NONE) };
        check(make(judge.handle.get()), 0)?;
        Ok(judge)
    }

    /// Takes the next bytes of the file.
    pub fn feed(&mut self, piece: &[u8]) -> Result<(), Error> {
        // SAFETY: the handle is valid, and the pointer comes with its slice's length.
        check(unsafe { ffi::bidi_judge_feed(self.handle.get(), piece.as_ptr(), piece.len()) }, 0)
    }

    /// Ends the file, and returns the verdict on all of it.
    pub fn finish(self) -> Result<Verdict, Error> {
        let mut verdict = ffi::bidi_verdict::default();
        // SAFETY: the handle is valid, and `verdict` takes one verdict.
        check(unsafe { ffi::bidi_judge_finish(self.handle.get(), &mut verdict) }, 0)?;
        Verdict::of(&verdict)
    }
}

impl Drop for Judge {
    fn drop(&mut self) {
        // SAFETY: the handle is valid, and no call follows.
        unsafe { ffi::bidi_judge_free(self.handle.get()) }
    }
}

numbered! {
    /// What of a row is not what the algorithm gives.
    Wrong: u32 {
        /// The level of the paragraph.
        ParaLevel = 1,
        /// The levels.
        Levels = 2,
        /// The order.
        Order = 3,
    }
}

numbered! {
    /// Why a line of a test file is malformed.
    Cause: u32 {
        /// The line has more than 65,536 bytes.
        LineTooLong = 1,
        /// The line begins with `@`, and is neither `@Levels:` nor `@Reorder:`.
        Directive = 2,
        /// An item of the levels is neither `x` nor 0 to 126.
        LevelItem = 3,
        /// An item of the order is not 0 to 65,535.
        OrderItem = 4,
        /// An item of the row is not the name of a class.
        ClassItem = 5,
        /// The set of directions is not a number of 1 to 15.
        BitSet = 6,
        /// No `@Levels:` or no `@Reorder:` comes before the row.
        NoExpectation = 7,
        /// The row has not as many fields as the file has: two, or five in a file of characters.
        FieldCount = 8,
        /// An item of the row is not a scalar value of 4 to 6 upper-case hex digits.
        CodePoint = 9,
        /// The field of the direction is not 0 to 3.
        DirectionField = 10,
        /// The field of the paragraph's level is neither 0 nor 1.
        ParaField = 11,
        /// The row has no class, or no code point.
        EmptyRow = 12,
    }
}

/// What a judge says of a file. Its text is the line that the command `bidi judge` prints, without the line feed.
#[derive(Clone, Copy, Debug, PartialEq, Eq, Hash)]
pub enum Verdict {
    /// The file is well formed, and each row is right.
    Yes {
        /// The number of rows.
        rows: u64,
        /// The number of cases: a row has one for each direction that it names.
        cases: u64,
    },
    /// A line is malformed.
    Malformed {
        /// The number of the first such line, from 1.
        line: u64,
        /// Why.
        cause: Cause,
    },
    /// A row is wrong.
    Wrong {
        /// The number of its line, from 1.
        line: u64,
        /// The first direction under which it is wrong.
        direction: Direction,
        /// What is wrong.
        place: Wrong,
        /// The index in the list of levels or of the order, from 0.
        index: usize,
    },
}

impl Verdict {
    /// Says whether it is a yes.
    pub fn is_yes(&self) -> bool {
        matches!(self, Self::Yes { .. })
    }

    fn of(verdict: &ffi::bidi_verdict) -> Result<Self, Error> {
        match verdict.answer {
            ffi::BIDI_YES => Ok(Self::Yes { rows: verdict.rows, cases: verdict.cases }),
            ffi::BIDI_MALFORMED => Ok(Self::Malformed { line: verdict.line, cause: Cause::of(verdict.reason)? }),
            ffi::BIDI_WRONG => Ok(Self::Wrong {
                line: verdict.line,
                direction: Direction::of(verdict.direction)?,
                place: Wrong::of(verdict.reason)?,
                index: verdict.index,
            }),
            other => Err(Error::Unknown(other)),
        }
    }

    /// Returns the numbers of the verdict; those that it doesn't name are 0.
    fn numbers(self) -> ffi::bidi_verdict {
        let none = ffi::bidi_verdict::default();
        match self {
            Self::Yes { rows, cases } => ffi::bidi_verdict { answer: ffi::BIDI_YES, rows, cases, ..none },
            Self::Malformed { line, cause } => {
                ffi::bidi_verdict { answer: ffi::BIDI_MALFORMED, reason: cause as u32, line, ..none }
            }
            Self::Wrong { line, direction, place, index } => ffi::bidi_verdict {
                answer: ffi::BIDI_WRONG,
                reason: place as u32,
                direction: direction as u32,
                line,
                index,
                ..none
            },
        }
    }
}

impl fmt::Display for Verdict {
    fn fmt(&self, f: &mut fmt::Formatter<'_>) -> fmt::Result {
        let (mut text, mut length) = ([0; ffi::BIDI_VERDICT_LINE], 0);
        let numbers = self.numbers();
        // SAFETY: `text` takes as many bytes as its length says, and `length` one number.
        let status = unsafe { ffi::bidi_verdict_text(&numbers, text.as_mut_ptr(), text.len(), &mut length) };
        check(status, 0).map_err(|_| fmt::Error)?;
        f.write_str(String::from_utf8_lossy(&text[..length]).trim_end())
    }
}
