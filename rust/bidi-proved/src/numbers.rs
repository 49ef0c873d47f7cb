//! What the library encodes as numbers: directions, levels, limits and classes.
use crate::ffi;
use std::fmt;

/// Declares an enum whose variants have the numbers of bidi.h. `of` returns the variant with a number, and fails with
/// `Unknown` if there is none.
macro_rules! numbered {
    ($(#[$doc:meta])* $name:ident: $number:ty { $($(#[$variant_doc:meta])* $variant:ident = $value:literal,)* }) => {
        $(#[$doc])*
        #[derive(Clone, Copy, Debug, PartialEq, Eq, Hash)]
        #[repr($number)]
        pub enum $name {
            $($(#[$variant_doc])* $variant = $value,)*
        }

        impl $name {
            pub(crate) fn of(number: $number) -> Result<Self, $crate::Error> {
                match number {
                    $($value => Ok(Self::$variant),)*
                    other => Err($crate::Error::Unknown(other.into())),
                }
            }
        }
    };
}
pub(crate) use numbered;

numbered! {
    /// The direction of all paragraphs of a text, or how the direction of each is found.
    Direction: u32 {
        /// Left-to-right.
        Ltr = 0,
        /// Right-to-left.
        Rtl = 1,
        /// That of the paragraph's first strong character (P2, P3), and left-to-right if there is none.
        Auto = 2,
        /// That of the paragraph's first strong character (P2, P3), and right-to-left if there is none.
        AutoRtl = 3,
    }
}

numbered! {
    /// The class of a character (its property Bidi_Class).
    #[allow(clippy::upper_case_acronyms)]
    Class: u8 {
        /// Left-to-right letter.
        L = 0,
        /// Right-to-left letter.
        R = 1,
        /// Right-to-left letter of an Arabic script.
        AL = 2,
        /// European number.
        EN = 3,
        /// European separator.
        ES = 4,
        /// European terminator.
        ET = 5,
        /// Arabic number.
        AN = 6,
        /// Common separator.
        CS = 7,
        /// Nonspacing mark.
        NSM = 8,
        /// Boundary neutral.
        BN = 9,
        /// Paragraph separator.
        B = 10,
        /// Segment separator.
        S = 11,
        /// White space.
        WS = 12,
        /// Other neutral.
        ON = 13,
        /// Left-to-right embedding.
        LRE = 14,
        /// Left-to-right override.
        LRO = 15,
        /// Right-to-left embedding.
        RLE = 16,
        /// Right-to-left override.
        RLO = 17,
        /// Pop directional formatting.
        PDF = 18,
        /// Left-to-right isolate.
        LRI = 19,
        /// Right-to-left isolate.
        RLI = 20,
        /// First strong isolate.
        FSI = 21,
        /// Pop directional isolate.
        PDI = 22,
    }
}

numbered! {
    /// What a character does as a bracket (BD14, BD15).
    Bracket: u8 {
        /// It opens a pair.
        Opening = 1,
        /// It closes a pair.
        Closing = 2,
    }
}

/// An embedding level: even levels are left-to-right, odd ones right-to-left.
#[derive(Clone, Copy, Debug, PartialEq, Eq, PartialOrd, Ord, Hash)]
pub struct Level(u8);

impl Level {
    pub(crate) fn new(number: u8) -> Self {
        Self(number)
    }

    /// Returns the level of a position, or `None` if X9 removes the position.
    pub(crate) fn unless_removed(number: u8) -> Option<Self> {
        (number != ffi::BIDI_REMOVED).then_some(Self(number))
    }

    /// Returns its number, 0 to 126.
    pub fn number(self) -> u8 {
        self.0
    }

    /// Says whether it is odd.
    pub fn is_rtl(self) -> bool {
        self.0 % 2 == 1
    }
}

impl fmt::Display for Level {
    fn fmt(&self, f: &mut fmt::Formatter<'_>) -> fmt::Result {
        self.0.fmt(f)
    }
}

/// How deep explicit levels go (BD2), and how many brackets can be open at once (BD16). The default is the standard's,
/// 125 and 63.
#[derive(Clone, Copy, Debug, PartialEq, Eq, Hash)]
pub struct Limits {
    /// The greatest explicit level, 1 to 125.
    pub depth: u8,
    /// The number of open brackets, 0 to 63; with 0 no pair counts.
    pub brackets: u8,
}

impl Default for Limits {
    fn default() -> Self {
        Self { depth: 125, brackets: 63 }
    }
}

impl Limits {
    pub(crate) fn for_call(self) -> ffi::bidi_limits {
        ffi::bidi_limits { depth: self.depth, brackets: self.brackets }
    }
}
