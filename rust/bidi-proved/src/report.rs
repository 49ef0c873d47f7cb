//! Reports on the algorithm's two conformance files: all of their wrong cases, and their counts.
use crate::error::{check, Error};
use crate::ffi;
use crate::judge::{Cause, Wrong};
use crate::numbers::{Direction, Level, Limits};
use crate::tables::Tables;
use std::cell::UnsafeCell;
use std::fmt;

/// A report on one file, which takes the file in pieces of any length, up to its first malformed line.
#[derive(Debug)]
pub struct Report {
    handle: UnsafeCell<ffi::bidi_report>,
}

// SAFETY: a handle may move to another thread between calls (bidi.h). Each call takes a reference to a `Report`, which
// is not `Sync`, so no two calls are made at once.
unsafe impl Send for Report {}

impl Report {
    /// Makes a report on a BidiTest.txt.
    ///
    /// Fails with `Memory`.
    pub fn classes() -> Result<Self, Error> {
        Self::classes_with(Limits::default())
    }

    /// Makes a report on a BidiTest.txt that lays out within these limits.
    ///
    /// Fails with `Depth`, `Brackets` or `Memory`.
    pub fn classes_with(limits: Limits) -> Result<Self, Error> {
        // SAFETY: `made` passes a handle that is `BIDI_NONE`.
        Self::made(|report| unsafe { ffi::bidi_report_new_classes_with(report, limits.for_call()) })
    }

    /// Makes a report on a BidiCharacterTest.txt by tables, which it shares.
    ///
    /// Fails with `Memory`.
    pub fn characters(tables: &Tables) -> Result<Self, Error> {
        Self::characters_with(tables, Limits::default())
    }

    /// Makes a report on a BidiCharacterTest.txt by tables that lays out within these limits.
    ///
    /// Fails with `Depth`, `Brackets` or `Memory`.
    pub fn characters_with(tables: &Tables, limits: Limits) -> Result<Self, Error> {
        // SAFETY: the handle of the tables is valid, and `made` passes a handle that is `BIDI_NONE`.
        Self::made(|report| unsafe { ffi::bidi_report_new_characters_with(tables.handle(), report, limits.for_call()) })
    }

    fn made(make: impl FnOnce(*mut ffi::bidi_report) -> u32) -> Result<Self, Error> {
        let report = Self { handle: UnsafeCell::new(ffi::bidi_report::NONE) };
        check(make(report.handle.get()), 0)?;
        Ok(report)
    }

    /// Takes the next bytes of the file, and returns the wrong cases on the lines that end in them.
    pub fn feed(&mut self, piece: &[u8]) -> Result<Vec<WrongCase>, Error> {
        let (mut cases, mut rest) = (Vec::new(), piece);
        while !rest.is_empty() {
            let mut used = 0;
            // SAFETY: the handle is valid, the pointer comes with its slice's length, and `used` takes one number.
            let status = unsafe { ffi::bidi_report_feed(self.handle.get(), rest.as_ptr(), rest.len(), &mut used) };
            check(status, 0)?;
            self.take_cases(&mut cases)?;
            rest = &rest[used..];
        }
        Ok(cases)
    }

    /// Ends the file, and returns the counts of all of it, with the wrong cases on a last line without a line feed.
    pub fn finish(self) -> Result<(Counts, Vec<WrongCase>), Error> {
        let (mut counts, mut cases) = (ffi::bidi_counts::default(), Vec::new());
        // SAFETY: the handle is valid, and `counts` takes all counts.
        check(unsafe { ffi::bidi_report_finish(self.handle.get(), &mut counts) }, 0)?;
        self.take_cases(&mut cases)?;
        Ok((Counts::of(&counts)?, cases))
    }

    /// Appends the wrong cases that were found last.
    fn take_cases(&self, cases: &mut Vec<WrongCase>) -> Result<(), Error> {
        loop {
            let mut case = ffi::bidi_wrong_case::default();
            // SAFETY: the handle is valid, and `case` takes one case.
            match unsafe { ffi::bidi_report_next(self.handle.get(), &mut case) } {
                ffi::BIDI_NO_CASE => return Ok(()),
                status => check(status, 0)?,
            }
            cases.push(WrongCase::of(&case)?);
        }
    }
}

impl Drop for Report {
    fn drop(&mut self) {
        // SAFETY: the handle is valid, and no call follows.
        unsafe { ffi::bidi_report_free(self.handle.get()) }
    }
}

/// What is at a place of what a row claims, or of what the algorithm gives.
#[derive(Clone, Copy, Debug, PartialEq, Eq, Hash)]
pub enum Item {
    /// Nothing: the list ends before the place.
    Ended,
    /// A position that X9 removes.
    Removed,
    /// A level.
    Level(Level),
    /// A position.
    Position(usize),
}

impl Item {
    fn of(item: ffi::bidi_item) -> Result<Self, Error> {
        match item.kind {
            ffi::BIDI_ITEM_ENDED => Ok(Self::Ended),
            ffi::BIDI_ITEM_REMOVED => Ok(Self::Removed),
            ffi::BIDI_ITEM_LEVEL => {
                let number = u8::try_from(item.value).map_err(|_| Error::Unknown(item.kind))?;
                Ok(Self::Level(Level::new(number)))
            }
            ffi::BIDI_ITEM_POSITION => Ok(Self::Position(item.value)),
            other => Err(Error::Unknown(other)),
        }
    }
}

impl fmt::Display for Item {
    fn fmt(&self, f: &mut fmt::Formatter<'_>) -> fmt::Result {
        match self {
            Self::Ended => f.write_str("nothing"),
            Self::Removed => f.write_str("x"),
            Self::Level(level) => level.fmt(f),
            Self::Position(position) => position.fmt(f),
        }
    }
}

/// A row that is wrong under one of its directions, with the first place at which it is. Its text is the line that the
/// command `bidi report` prints, without the line feed.
#[derive(Clone, Copy, Debug, PartialEq, Eq, Hash)]
pub struct WrongCase {
    /// The number of the line, from 1.
    pub line: u64,
    /// The direction.
    pub direction: Direction,
    /// What is wrong.
    pub place: Wrong,
    /// The index in the list of levels or of the order, from 0; 0 for the level of the paragraph.
    pub index: usize,
    /// What the row claims there.
    pub claimed: Item,
    /// What the algorithm gives there.
    pub defined: Item,
}

impl WrongCase {
    fn of(case: &ffi::bidi_wrong_case) -> Result<Self, Error> {
        Ok(Self {
            line: case.line,
            direction: Direction::of(case.direction)?,
            place: Wrong::of(case.place)?,
            index: case.index,
            claimed: Item::of(case.claimed)?,
            defined: Item::of(case.defined)?,
        })
    }
}

impl fmt::Display for WrongCase {
    fn fmt(&self, f: &mut fmt::Formatter<'_>) -> fmt::Result {
        let direction = match self.direction {
            Direction::Ltr => "ltr",
            Direction::Rtl => "rtl",
            Direction::Auto => "auto",
            Direction::AutoRtl => "auto-rtl",
        };
        write!(f, "line {}: {direction}: ", self.line)?;
        match self.place {
            Wrong::ParaLevel => write!(f, "paragraph level")?,
            Wrong::Levels => write!(f, "levels at {}", self.index)?,
            Wrong::Order => write!(f, "order at {}", self.index)?,
        }
        write!(f, ": claimed {}, defined {}", self.claimed, self.defined)
    }
}

/// The counts of a test file, up to its first malformed line.
#[derive(Clone, Copy, Debug, PartialEq, Eq, Hash)]
pub struct Counts {
    /// The number of rows.
    pub rows: u64,
    /// The number of cases: a row has one for each direction that it names.
    pub cases: u64,
    /// The number of rows with a wrong case.
    pub wrong_rows: u64,
    /// The number of wrong cases.
    pub wrong_cases: u64,
    /// The wrong cases under `Ltr`.
    pub ltr: u64,
    /// The wrong cases under `Rtl`.
    pub rtl: u64,
    /// The wrong cases under `Auto`.
    pub auto: u64,
    /// The wrong cases under `AutoRtl`.
    pub auto_rtl: u64,
    /// The wrong cases in which the level of the paragraph differs first.
    pub para_level: u64,
    /// The wrong cases in which the levels differ first.
    pub levels: u64,
    /// The wrong cases in which the order differs first.
    pub order: u64,
    /// The number of the first malformed line, from 1, with its cause.
    pub malformed: Option<(u64, Cause)>,
}

impl Counts {
    /// Says whether the file is well formed, and each row is right.
    pub fn is_right(&self) -> bool {
        self.wrong_cases == 0 && self.malformed.is_none()
    }

    fn of(counts: &ffi::bidi_counts) -> Result<Self, Error> {
        let malformed = match counts.malformed {
            0 => None,
            line => Some((line, Cause::of(counts.cause)?)),
        };
        Ok(Self {
            rows: counts.rows,
            cases: counts.cases,
            wrong_rows: counts.wrong_rows,
            wrong_cases: counts.wrong_cases,
            ltr: counts.ltr,
            rtl: counts.rtl,
            auto: counts.auto_ltr,
            auto_rtl: counts.auto_rtl,
            para_level: counts.para_level,
            levels: counts.levels,
            order: counts.order,
            malformed,
        })
    }
}
