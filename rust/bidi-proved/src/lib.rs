//! The Unicode Bidirectional Algorithm (UAX #9, P1 to L2 and L4), and a judge of its conformance files, over the proved
//! library libbidi_c. What is proved is the library; this crate is only tested. docs/RUST.md of the repository says how
//! to build it.
//!
//! A [`Room`] lays out a text by [`Tables`]. All positions are offsets: bytes of a `&str`, or units of a `&[u16]`.
//!
//! ```
//! use bidi_proved::{Direction, Room, Tables};
//!
//! # fn main() -> Result<(), bidi_proved::Error> {
//! let tables = Tables::standard()?;
//! let text = "אב (cd) 12";
//! let mut room = Room::new(text.len())?;
//! let layout = room.lay_out(text, &tables, Direction::Auto, &[])?;
//! for line in layout.lines() {
//!     assert_eq!(line.shown(&tables), "12 (cd) בא");
//!     for run in line.runs() {
//!         println!("{} at level {}", &text[run.range()], run.level);
//!     }
//! }
//! # Ok(())
//! # }
//! ```
//!
//! # Threads
//!
//! Any number of threads use the same [`Tables`] at once, by reference or by [`Tables::share`]. [`Room`], [`Layout`],
//! [`Judge`] and [`Report`] are `Send` and not `Sync`: each thread takes a room of its own.
#![warn(missing_docs)]
#![deny(unsafe_op_in_unsafe_fn)]

mod error;
mod ffi;
mod judge;
mod layout;
mod numbers;
mod report;
mod room;
mod tables;

pub use error::{Error, FaultKind, TableFault};
pub use judge::{Cause, Judge, Verdict, Wrong};
pub use layout::{Layout, Line, LineAlone, Lines, Run, Text};
pub use numbers::{Bracket, Class, Direction, Level, Limits};
pub use report::{Counts, Item, Report, WrongCase};
pub use room::Room;
pub use tables::Tables;

/// The example of README.md and of the manual, which is compiled and run as a test.
#[cfg(doctest)]
#[doc = include_str!("../README.md")]
struct Readme;

/// Returns the version of the library that is linked, such as `1.1.0`.
pub fn version() -> String {
    // SAFETY: `copied` passes memory for as many bytes as it says.
    text_of(copied(|text, capacity| unsafe { ffi::bidi_version(text, capacity) }))
}

/// Returns the edition of Unicode whose tables are built into that library, such as `17.0.0`.
pub fn edition() -> String {
    // SAFETY: `copied` passes memory for as many bytes as it says.
    text_of(copied(|text, capacity| unsafe { ffi::bidi_edition(text, capacity) }))
}

fn text_of(bytes: Vec<u8>) -> String {
    String::from_utf8_lossy(&bytes).into_owned()
}

/// Returns the items that a look-up of the library writes. `ask` is called with memory for some number of items. It
/// returns how many items there are, and writes them only if all fit.
fn copied<T: Clone + Default>(ask: impl Fn(*mut T, usize) -> usize) -> Vec<T> {
    let mut items = vec![T::default(); ask(std::ptr::null_mut(), 0)];
    ask(items.as_mut_ptr(), items.len());
    items
}
