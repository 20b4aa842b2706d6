//! Router presets as words in Coxeter groups A, B and D.
//!
//! A preset is a kind, a rank n and a word: a list of steps from 1 to n, applied from the left. Its window is what the
//! screens show then: lane by lane a number, with a minus sign if the lane is mirrored. Of all words with one window
//! the normal form is the shortest, and among those the first in the dictionary, where the HIGHER step comes first.
//!
//! This crate hands each call to a library that is proved to give the answer defined over signed permutations for every
//! input. Nothing is left to the caller to check: a call that cannot be answered gives a [`Refusal`].
//!
//! ```
//! use winnathey::{Group, Refusal, Word};
//!
//! let group: Group = "D5".parse()?;
//! let word: Word = "4 4 2 5 3 5 1 2".parse()?;
//! assert_eq!(group.window_of_word(&word)?.to_string(), "3 -5 1 4 -2");
//! assert_eq!(group.normal_form_of_word(&word)?.to_string(), "5 2 3 5 1 2");
//! assert_eq!(group.window_of_word(&[6]), Err(Refusal::Letter));
//! # Ok::<(), Box<dyn std::error::Error>>(())
//! ```
//!
//! # Features
//!
//! The crate needs neither the standard library nor, without its feature `alloc`, an allocator: then there are [`lent`] but
//! for its `presets`, [`Kind`], [`Window`] and [`Steps`]. `alloc` is on by default.
#![no_std]
#![warn(missing_docs)]

#[cfg(feature = "alloc")]
extern crate alloc;
#[cfg(test)]
extern crate std;

#[cfg(feature = "alloc")]
mod book;
#[cfg(feature = "alloc")]
mod group;
mod kind;
pub mod lent;
mod list;
// Not part of the interface: the comparison and the benchmark of the repository call it.
#[doc(hidden)]
pub mod raw;
#[cfg(feature = "alloc")]
mod records;
mod refusal;
mod steps;
mod window;
#[cfg(feature = "alloc")]
mod word;

#[cfg(feature = "alloc")]
pub use book::{Book, Preset, Presets, RefusedPreset};
#[cfg(feature = "alloc")]
pub use group::{DelayTable, Group, ParseGroupError, Rewrite, RewriteStep, Rewriting, Split};
pub use kind::{Kind, ParseKindError};
pub use lent::Crossings;
pub use list::ListError;
pub use refusal::{Message, Refusal};
pub use steps::Steps;
pub use window::Window;
#[cfg(feature = "alloc")]
pub use word::Word;

/// The most lanes of a window: 64.
pub const MAX_LANES: usize = 64;
/// The most letters of a word: 4,096.
pub const MAX_WORD: usize = 4096;
/// The most letters of a normal form: 4,096, in kind B at rank 64. An output of this length is never too short for one.
pub const MAX_NORMAL_FORM: usize = 4096;
/// The most numbers of a delay table: 257, in kind B at rank 16.
pub const MAX_TABLE_COUNTS: usize = 257;
/// The most bytes of a book: 65,535.
pub const MAX_BOOK: usize = 65535;

/// The edition of a book: what a record has before its letters, and how high its rank may be.
#[derive(Clone, Copy, PartialEq, Eq, Hash, Debug)]
pub enum Edition {
    /// Kind, rank, letter count: four bytes. Ranks 1 to 31 in kind A, 2 to 32 in B, 4 to 32 in D.
    First,
    /// Kind, rank, lane count, letter count: five bytes. The ranks of the calls on words and windows.
    Second,
}

/// The version of the library that is linked: major, minor, patch.
///
/// ```
/// let (major, minor, patch) = winnathey::version();
/// assert_eq!(format!("{major}.{minor}.{patch}"), env!("CARGO_PKG_VERSION"));
/// ```
pub fn version() -> (u32, u32, u32) {
    let number = raw::version() as u32;
    (number / 1_000_000, number / 1_000 % 1_000, number % 1_000)
}
