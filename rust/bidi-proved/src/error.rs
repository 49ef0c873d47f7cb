//! Why a call of the library fails.
use crate::ffi;
use crate::numbers::numbered;
use std::fmt;

/// Why a call failed. It has changed nothing then.
#[derive(Clone, Copy, Debug, PartialEq, Eq, Hash)]
#[non_exhaustive]
pub enum Error {
    /// Memory was refused.
    Memory,
    /// A room for more than 16,777,216 code units was asked for.
    TooBig,
    /// The text is longer than the room.
    TooLong,
    /// A unit is not part of a character.
    IllFormed {
        /// The offset of the first such unit.
        offset: usize,
    },
    /// A break is 0, or not below the length of the text.
    BreakOutOfRange {
        /// The index of the first faulty break.
        index: usize,
    },
    /// A break is not above the one before.
    BreakNotRising {
        /// The index of the first faulty break.
        index: usize,
    },
    /// A break is inside a character.
    BreakInside {
        /// The index of the first such break.
        index: usize,
    },
    /// A line does not start below its end.
    LineNotForward,
    /// A line ends after the text.
    LineBeyondText,
    /// A line goes on after the end of a paragraph.
    LineCrossesParagraph,
    /// The depth of the limits is 0 or above 125.
    Depth,
    /// The number of brackets of the limits is above 63.
    Brackets,
    /// DerivedBidiClass.txt is faulty.
    ClassFile(TableFault),
    /// BidiBrackets.txt is faulty.
    BracketFile(TableFault),
    /// BidiMirroring.txt is faulty.
    MirrorFile(TableFault),
    /// The library returned a number that this version of the crate doesn't know.
    Unknown(u32),
}

/// The first faulty line of a property file.
#[derive(Clone, Copy, Debug, PartialEq, Eq, Hash)]
pub struct TableFault {
    /// The number of the line, from 1.
    pub line: u64,
    /// What is wrong with it.
    pub kind: FaultKind,
}

numbered! {
    /// What is wrong with a line of a property file.
    FaultKind: u32 {
        /// A field is not a code point of 4 to 6 upper-case hex digits.
        CodePoint = 1,
        /// A range ends below its start.
        Backwards = 2,
        /// A field is not the name of a class.
        ClassName = 3,
        /// The line has another number of fields than the file has.
        Fields = 4,
        /// A line of classes has a code point of an earlier line.
        Overlap = 5,
        /// A line of brackets or mirrored characters has the character of an earlier line.
        Twice = 6,
        /// The third field of a bracket's line is neither `o` nor `c`.
        BracketKind = 7,
        /// The line has more than 65,536 bytes.
        LineTooLong = 8,
        /// The file has too many lines of data or of defaults.
        TooMany = 9,
    }
}

impl fmt::Display for TableFault {
    fn fmt(&self, f: &mut fmt::Formatter<'_>) -> fmt::Result {
        write!(f, "line {}: {:?}", self.line, self.kind)
    }
}

impl fmt::Display for Error {
    fn fmt(&self, f: &mut fmt::Formatter<'_>) -> fmt::Result {
        match self {
            Self::Memory => write!(f, "memory was refused"),
            Self::TooBig => write!(f, "a room takes at most 16,777,216 code units"),
            Self::TooLong => write!(f, "the text is longer than the room"),
            Self::IllFormed { offset } => write!(f, "the unit at {offset} is not part of a character"),
            Self::BreakOutOfRange { index } => write!(f, "break {index} is 0 or not below the length of the text"),
            Self::BreakNotRising { index } => write!(f, "break {index} is not above the one before"),
            Self::BreakInside { index } => write!(f, "break {index} is inside a character"),
            Self::LineNotForward => write!(f, "the line does not start below its end"),
            Self::LineBeyondText => write!(f, "the line ends after the text"),
            Self::LineCrossesParagraph => write!(f, "the line goes on after the end of a paragraph"),
            Self::Depth => write!(f, "the depth of the limits is 0 or above 125"),
            Self::Brackets => write!(f, "the number of brackets of the limits is above 63"),
            Self::ClassFile(fault) => write!(f, "DerivedBidiClass.txt: {fault}"),
            Self::BracketFile(fault) => write!(f, "BidiBrackets.txt: {fault}"),
            Self::MirrorFile(fault) => write!(f, "BidiMirroring.txt: {fault}"),
            Self::Unknown(number) => write!(f, "the library returned the unknown number {number}"),
        }
    }
}

impl std::error::Error for Error {}

/// Fails with the error of a status that is not `BIDI_DONE`. `place` is what the call wrote there.
pub(crate) fn check(status: u32, place: u64) -> Result<(), Error> {
    let place = place as usize;
    Err(match status {
        ffi::BIDI_DONE => return Ok(()),
        ffi::BIDI_MEMORY => Error::Memory,
        ffi::BIDI_TOO_BIG => Error::TooBig,
        ffi::BIDI_TOO_LONG => Error::TooLong,
        ffi::BIDI_ILL_FORMED => Error::IllFormed { offset: place },
        ffi::BIDI_BREAK_OUT_OF_RANGE => Error::BreakOutOfRange { index: place },
        ffi::BIDI_BREAK_NOT_RISING => Error::BreakNotRising { index: place },
        ffi::BIDI_BREAK_INSIDE => Error::BreakInside { index: place },
        ffi::BIDI_LINE_NOT_FORWARD => Error::LineNotForward,
        ffi::BIDI_LINE_BEYOND_TEXT => Error::LineBeyondText,
        ffi::BIDI_LINE_CROSSES => Error::LineCrossesParagraph,
        ffi::BIDI_DEPTH => Error::Depth,
        ffi::BIDI_BRACKETS => Error::Brackets,
        other => Error::Unknown(other),
    })
}

/// Fails as `check` does, and with the fault of a property file.
pub(crate) fn check_files(status: u32, fault: ffi::bidi_fault) -> Result<(), Error> {
    let file = match status {
        ffi::BIDI_CLASS_FILE => Error::ClassFile,
        ffi::BIDI_BRACKET_FILE => Error::BracketFile,
        ffi::BIDI_MIRROR_FILE => Error::MirrorFile,
        other => return check(other, 0),
    };
    Err(file(TableFault { line: fault.line, kind: FaultKind::of(fault.kind)? }))
}
