//! The calls on lent buffers: each returns a [`Refusal`], or how much it wrote to the front of the outputs that
//! it was lent, and allocates nothing.
//!
//! A refused call changes no byte of an output; an accepted one leaves what lies behind its answer as it was. The types
//! `Group` and `Book`, which need the feature `alloc`, say the same with vectors.
//!
//! ```
//! use winnathey::lent::{Kind, normal_form_of_word, window_of_word};
//!
//! let word = [1, 2, 1, 2];
//! let mut window = [0; winnathey::MAX_LANES];
//! let lanes = window_of_word(Kind::B, 2, &word, &mut window)?;
//! assert_eq!(window[..lanes], [-1, -2]);
//!
//! let mut form = [0; winnathey::MAX_NORMAL_FORM];
//! let length = normal_form_of_word(Kind::B, 2, &word, &mut form)?;
//! assert_eq!(form[..length], [2, 1, 2, 1]);
//! # Ok::<(), winnathey::Refusal>(())
//! ```

#[cfg(feature = "alloc")]
mod presets;

pub use crate::{Edition, MAX_BOOK, MAX_LANES, MAX_NORMAL_FORM, MAX_TABLE_COUNTS, MAX_WORD, Refusal};
#[cfg(feature = "alloc")]
pub use presets::{Presets, presets};

use crate::raw;
use core::fmt;

/// The kind of a preset. Any number can be written here; a call refuses those that are not [`A`](Kind::A),
/// [`B`](Kind::B) or [`D`](Kind::D).
#[derive(Clone, Copy, PartialEq, Eq, Hash, Debug)]
pub struct Kind(pub u8);

impl Kind {
    /// Ranks 1 to 63, in a book of the first edition 1 to 31; one lane more than the rank. Step i exchanges the lanes at i and i + 1.
    pub const A: Kind = Kind(1);
    /// Ranks 2 to 64, in a book of the first edition 2 to 32. As in A, but step n mirrors the last lane.
    pub const B: Kind = Kind(2);
    /// Ranks 4 to 64, in a book of the first edition 4 to 32. As in A, but step n exchanges the last two lanes and mirrors both.
    pub const D: Kind = Kind(3);
}

impl fmt::Display for Kind {
    fn fmt(&self, f: &mut fmt::Formatter<'_>) -> fmt::Result {
        match self.0 {
            1 => f.write_str("A"),
            2 => f.write_str("B"),
            3 => f.write_str("D"),
            other => write!(f, "kind {other}"),
        }
    }
}

/// The answer of the C interface.
fn answered(answer: i64) -> Result<usize, Refusal> {
    match usize::try_from(answer) {
        Ok(answer) => Ok(answer),
        Err(_) => Err(Refusal::answered(answer)),
    }
}

/// A preset whose letters are lent, for instance by a book.
#[derive(Clone, Copy, PartialEq, Eq, Hash, Debug)]
pub struct Preset<'a> {
    /// Its kind.
    pub kind: Kind,
    /// Its rank.
    pub rank: u8,
    /// Its letters.
    pub word: &'a [u8],
}

/// Writes the window of a word, and returns its number of lanes. Refusals 5 to 8, 14.
///
/// ```
/// use winnathey::lent::{Kind, window_of_word};
///
/// let mut out = [0; 4];
/// assert_eq!(window_of_word(Kind::A, 2, &[1, 2, 1], &mut out), Ok(3));
/// assert_eq!(out, [3, 2, 1, 0]);
/// ```
pub fn window_of_word(kind: Kind, rank: u8, word: &[u8], out: &mut [i8]) -> Result<usize, Refusal> {
    answered(raw::window_of_word(kind.0.into(), rank.into(), word, out))
}

/// Writes the normal form of a word, and returns its length. Refusals 5 to 8, 14.
///
/// ```
/// use winnathey::lent::{Kind, MAX_NORMAL_FORM, normal_form_of_word};
///
/// let mut out = [0; MAX_NORMAL_FORM];
/// let length = normal_form_of_word(Kind::A, 2, &[1, 2, 1], &mut out)?;
/// assert_eq!(out[..length], [2, 1, 2]);
/// # Ok::<(), winnathey::Refusal>(())
/// ```
pub fn normal_form_of_word(kind: Kind, rank: u8, word: &[u8], out: &mut [u8]) -> Result<usize, Refusal> {
    answered(raw::normal_form_of_word(kind.0.into(), rank.into(), word, out))
}

/// Writes the normal form of a window, and returns its length. Refusals 5, 6, 9 to 11, 14.
///
/// ```
/// use winnathey::lent::{Kind, MAX_NORMAL_FORM, normal_form_of_window};
///
/// let mut out = [0; MAX_NORMAL_FORM];
/// let length = normal_form_of_window(Kind::D, 5, &[3, -5, 1, 4, -2], &mut out)?;
/// assert_eq!(out[..length], [5, 2, 3, 5, 1, 2]);
///
/// let refusal = normal_form_of_window(Kind::D, 4, &[-1, 2, 3, 4], &mut out).unwrap_err();
/// assert_eq!(refusal.number(), 11);
/// # Ok::<(), winnathey::Refusal>(())
/// ```
pub fn normal_form_of_window(kind: Kind, rank: u8, window: &[i8], out: &mut [u8]) -> Result<usize, Refusal> {
    answered(raw::normal_form_of_window(kind.0.into(), rank.into(), window, out))
}

/// Writes the normal form of the first word followed by the second, and returns its length. Refusals 5 to 8, 14.
///
/// ```
/// use winnathey::lent::{Kind, MAX_NORMAL_FORM, product_of_words};
///
/// let mut out = [0; MAX_NORMAL_FORM];
/// let length = product_of_words(Kind::A, 3, &[1], &[3], &mut out)?;
/// assert_eq!(out[..length], [3, 1]);
/// # Ok::<(), winnathey::Refusal>(())
/// ```
pub fn product_of_words(kind: Kind, rank: u8, first: &[u8], second: &[u8], out: &mut [u8]) -> Result<usize, Refusal> {
    answered(raw::product_of_words(kind.0.into(), rank.into(), first, second, out))
}

/// Writes the product of two windows, the first's word followed by the second's, and returns its number of lanes.
/// Refusals 5, 6, 9 to 11, 14.
///
/// ```
/// use winnathey::lent::{Kind, product_of_windows};
///
/// let mut out = [0; 3];
/// product_of_windows(Kind::B, 3, &[2, 1, 3], &[1, 3, -2], &mut out)?;
/// assert_eq!(out, [2, 3, -1]);
/// # Ok::<(), winnathey::Refusal>(())
/// ```
pub fn product_of_windows(kind: Kind, rank: u8, first: &[i8], second: &[i8], out: &mut [i8]) -> Result<usize, Refusal> {
    answered(raw::product_of_windows(kind.0.into(), rank.into(), first, second, out))
}

/// Writes the normal form of a word's inverse, and returns its length. Refusals 5 to 8, 14.
///
/// ```
/// use winnathey::lent::{Kind, MAX_NORMAL_FORM, inverse_of_word};
///
/// let mut out = [0; MAX_NORMAL_FORM];
/// let length = inverse_of_word(Kind::A, 2, &[1, 2], &mut out)?;
/// assert_eq!(out[..length], [2, 1]);
/// # Ok::<(), winnathey::Refusal>(())
/// ```
pub fn inverse_of_word(kind: Kind, rank: u8, word: &[u8], out: &mut [u8]) -> Result<usize, Refusal> {
    answered(raw::inverse_of_word(kind.0.into(), rank.into(), word, out))
}

/// Writes the inverse of a window, and returns its number of lanes. Refusals 5, 6, 9 to 11, 14.
///
/// ```
/// use winnathey::lent::{Kind, inverse_of_window};
///
/// let mut out = [0; 3];
/// inverse_of_window(Kind::B, 3, &[2, 3, -1], &mut out)?;
/// assert_eq!(out, [-3, 1, 2]);
/// # Ok::<(), winnathey::Refusal>(())
/// ```
pub fn inverse_of_window(kind: Kind, rank: u8, window: &[i8], out: &mut [i8]) -> Result<usize, Refusal> {
    answered(raw::inverse_of_window(kind.0.into(), rank.into(), window, out))
}

/// The length of a word's normal form. Refusals 5 to 8.
///
/// ```
/// use winnathey::lent::{Kind, length_of_word};
///
/// assert_eq!(length_of_word(Kind::B, 2, &[1, 2, 1, 2]), Ok(4));
/// assert_eq!(length_of_word(Kind::B, 2, &[1, 1]), Ok(0));
/// ```
pub fn length_of_word(kind: Kind, rank: u8, word: &[u8]) -> Result<usize, Refusal> {
    answered(raw::length_of_word(kind.0.into(), rank.into(), word))
}

/// The length of a window's normal form. Refusals 5, 6, 9 to 11.
///
/// ```
/// use winnathey::lent::{Kind, length_of_window};
///
/// assert_eq!(length_of_window(Kind::B, 2, &[-1, -2]), Ok(4));
/// ```
pub fn length_of_window(kind: Kind, rank: u8, window: &[i8]) -> Result<usize, Refusal> {
    answered(raw::length_of_window(kind.0.into(), rank.into(), window))
}

/// A length as its three counts. One that the kind lacks is 0: A has only inversions, D no negatives.
#[derive(Clone, Copy, PartialEq, Eq, Hash, Debug)]
pub struct Crossings {
    /// Plain pairs: the first entry stands later in the order 1, 2, .., m, -m, .., -2, -1.
    pub inversions: usize,
    /// Pairs against a mirrored lane: the first entry stands later than the negative of the second.
    pub negative_sum_pairs: usize,
    /// Mirrored lanes.
    pub negatives: usize,
}

impl Crossings {
    /// The length: the total of the three.
    pub fn total(&self) -> usize {
        self.inversions + self.negative_sum_pairs + self.negatives
    }

    fn answered(answer: i64, counts: [u64; 3]) -> Result<Crossings, Refusal> {
        let [inversions, negative_sum_pairs, negatives] = counts.map(|count| count as usize);
        answered(answer).map(|_| Crossings { inversions, negative_sum_pairs, negatives })
    }
}

/// The length of a word's normal form as its three counts. Refusals 5 to 8.
///
/// ```
/// use winnathey::lent::{Crossings, Kind, crossings_of_word, length_of_word};
///
/// let word = [1, 2, 1, 2];
/// let crossings = crossings_of_word(Kind::B, 2, &word)?;
/// assert_eq!(crossings, Crossings { inversions: 1, negative_sum_pairs: 1, negatives: 2 });
/// assert_eq!(crossings.total(), length_of_word(Kind::B, 2, &word)?);
/// # Ok::<(), winnathey::Refusal>(())
/// ```
pub fn crossings_of_word(kind: Kind, rank: u8, word: &[u8]) -> Result<Crossings, Refusal> {
    let mut counts = [0; 3];
    Crossings::answered(raw::crossings_of_word(kind.0.into(), rank.into(), word, &mut counts), counts)
}

/// The length of a window's normal form as its three counts. Refusals 5, 6, 9 to 11.
///
/// ```
/// use winnathey::lent::{Crossings, Kind, crossings_of_window};
///
/// let window = [1, 2, -4, -3];
/// assert_eq!(crossings_of_window(Kind::D, 4, &window), Ok(Crossings { inversions: 0, negative_sum_pairs: 1, negatives: 0 }));
/// ```
pub fn crossings_of_window(kind: Kind, rank: u8, window: &[i8]) -> Result<Crossings, Refusal> {
    let mut counts = [0; 3];
    Crossings::answered(raw::crossings_of_window(kind.0.into(), rank.into(), window, &mut counts), counts)
}

/// A delay table: how many numbers, entries and letters it has.
#[derive(Clone, Copy, PartialEq, Eq, Hash, Debug)]
pub struct DelayTable {
    /// Lengths that are counted, from 0 to the greatest.
    pub counts: usize,
    /// Entries of the longest window.
    pub window: usize,
    /// Letters of its normal form: the greatest length.
    pub normal_form: usize,
}

/// Writes the delay table of a kind and rank: how many windows have the length 0, 1, .. up to the greatest; then the one
/// window with the greatest length, and its normal form. Answers with the length of each. There are tables up to rank 19
/// in kind A and up to 16 in B and D. Refusals 5, 6, 20, 14.
///
/// ```
/// use winnathey::lent::{DelayTable, Kind, MAX_TABLE_COUNTS, MAX_LANES, MAX_NORMAL_FORM, delay_table};
///
/// let (mut counts, mut window, mut form) = ([0; MAX_TABLE_COUNTS], [0; MAX_LANES], [0; MAX_NORMAL_FORM]);
/// let lengths = delay_table(Kind::B, 2, &mut counts, &mut window, &mut form)?;
/// assert_eq!(lengths, DelayTable { counts: 5, window: 2, normal_form: 4 });
/// assert_eq!(counts[..5], [1, 2, 2, 2, 1]);
/// assert_eq!(window[..2], [-1, -2]);
/// assert_eq!(form[..4], [2, 1, 2, 1]);
///
/// let refusal = delay_table(Kind::A, 20, &mut counts, &mut window, &mut form).unwrap_err();
/// assert_eq!(refusal.number(), 20);
/// # Ok::<(), winnathey::Refusal>(())
/// ```
pub fn delay_table(
    kind: Kind,
    rank: u8,
    counts: &mut [u64],
    window: &mut [i8],
    normal_form: &mut [u8],
) -> Result<DelayTable, Refusal> {
    let mut lengths = [0; 3];
    answered(raw::delay_table(kind.0.into(), rank.into(), counts, window, normal_form, &mut lengths))?;
    let [counts, window, normal_form] = lengths.map(|length| length as usize);
    Ok(DelayTable { counts, window, normal_form })
}

/// Whether two presets look alike: as many lanes and the same window, whatever their kinds and ranks. Refusals 5 to 8,
/// the first preset's before the second's. Equal presets of one kind and rank have one normal form; others may not.
///
/// ```
/// use winnathey::lent::{Kind, Preset, same};
///
/// let up = Preset { kind: Kind::A, rank: 2, word: &[1, 2, 1] };
/// let down = Preset { kind: Kind::A, rank: 2, word: &[2, 1, 2] };
/// assert_eq!(same(up, down), Ok(true));
/// assert_eq!(same(up, Preset { word: &[], ..up }), Ok(false));
/// // Four lanes each.
/// assert_eq!(same(Preset { rank: 3, ..up }, Preset { kind: Kind::B, rank: 4, ..up }), Ok(true));
/// ```
pub fn same(first: Preset, second: Preset) -> Result<bool, Refusal> {
    answered(raw::same(
        first.kind.0.into(),
        first.rank.into(),
        first.word,
        second.kind.0.into(),
        second.rank.into(),
        second.word,
    ))
    .map(|answer| answer == 1)
}

/// The better of two words with one window: the shorter of the two slices itself; at equal lengths the one earlier in
/// the dictionary, at equal words the first. `None` if the windows differ. Refusals 5 to 8, the first word's before the
/// second's.
///
/// ```
/// use winnathey::lent::{Kind, Refusal, better};
///
/// assert_eq!(better(Kind::A, 2, &[1, 2, 1], &[2, 1, 2]), Ok(Some(&[2, 1, 2][..])));
/// assert_eq!(better(Kind::A, 2, &[1], &[2]), Ok(None));
/// assert_eq!(better(Kind::A, 2, &[1], &[3]), Err(Refusal::Letter));
/// ```
pub fn better<'a>(kind: Kind, rank: u8, first: &'a [u8], second: &'a [u8]) -> Result<Option<&'a [u8]>, Refusal> {
    match raw::better(kind.0.into(), rank.into(), first, second) {
        1 => Ok(Some(first)),
        2 => Ok(Some(second)),
        // Neither: their windows differ, or one is refused.
        _ => same(Preset { kind, rank, word: first }, Preset { kind, rank, word: second }).map(|_| None),
    }
}

/// What one rewrite did.
#[derive(Clone, Copy, PartialEq, Eq, Hash, Debug)]
pub enum Rewrite {
    /// The rule's family with its i and j, and the length of the new word.
    Used {
        /// 1 to 7.
        family: u8,
        /// The rule's i.
        i: u8,
        /// The rule's j, or 0.
        j: u8,
        /// Letters of the new word.
        length: usize,
    },
    /// No rule's left side begins at the place and lies wholly inside the word. Nothing was written.
    NoneFits,
}

/// Replaces the left side of the rule that begins at a place, counted from 0, and writes the new word. Refusals 5 to 8,
/// 12, 14.
///
/// ```
/// use winnathey::lent::{Kind, Rewrite, rewrite};
///
/// let mut out = [0; 2];
/// let used = rewrite(Kind::D, 4, &[3, 4], 0, &mut out)?;
/// assert_eq!(used, Rewrite::Used { family: 2, i: 3, j: 4, length: 2 });
/// assert_eq!(out, [4, 3]);
///
/// assert_eq!(rewrite(Kind::B, 4, &[3, 4], 0, &mut out)?, Rewrite::NoneFits);
/// # Ok::<(), winnathey::Refusal>(())
/// ```
pub fn rewrite(kind: Kind, rank: u8, word: &[u8], place: usize, out: &mut [u8]) -> Result<Rewrite, Refusal> {
    let mut rule = [0; 3];
    match raw::rewrite(kind.0.into(), rank.into(), word, place, out, &mut rule) {
        raw::NONE_FITS => Ok(Rewrite::NoneFits),
        answer => {
            let length = answered(answer)?;
            let [family, i, j] = rule;
            Ok(Rewrite::Used { family, i, j, length })
        }
    }
}

/// How many steps [`rewrite_to_end`] takes: so many places each of its lists must have. At most L * (L - 1) / 2 for a
/// word of L letters. Refusals 5 to 8.
///
/// ```
/// use winnathey::lent::{Kind, rewrite_steps};
///
/// assert_eq!(rewrite_steps(Kind::A, 3, &[1, 3, 3]), Ok(3));
/// assert_eq!(rewrite_steps(Kind::A, 3, &[3, 1]), Ok(0));
/// ```
pub fn rewrite_steps(kind: Kind, rank: u8, word: &[u8]) -> Result<usize, Refusal> {
    answered(raw::rewrite_steps(kind.0.into(), rank.into(), word))
}

/// A rewriting to its end: how many steps it took, and the length of the final word.
#[derive(Clone, Copy, PartialEq, Eq, Hash, Debug)]
pub struct Ended {
    /// How many steps it took.
    pub steps: usize,
    /// Letters of the final word.
    pub length: usize,
}

/// Rewrites a word always at the lowest place where a rule fits, until none fits. Writes for each step the rule's family,
/// the place, counted from 0, and the length left to the fronts of the three lists, and the final word, which is the
/// normal form, to the front of `out`. [`rewrite_steps`] says how long the lists must be. [`rewrite`] at the places of the
/// list replays it. Refusals 5 to 8, 15, 14.
///
/// ```
/// use winnathey::lent::{Ended, Kind, MAX_NORMAL_FORM, rewrite_steps, rewrite_to_end};
///
/// let word = [1, 2, 1, 2, 1];
/// let steps = rewrite_steps(Kind::B, 2, &word)?;
/// let (mut families, mut places, mut lengths) = (vec![0; steps], vec![0; steps], vec![0; steps]);
/// let mut out = [0; MAX_NORMAL_FORM];
/// let ended = rewrite_to_end(Kind::B, 2, &word, &mut families, &mut places, &mut lengths, &mut out)?;
/// assert_eq!(ended, Ended { steps: 2, length: 3 });
///
/// let mut lines = vec![format!("{word:?}")];
/// for step in 0..ended.steps {
///     let (family, place, length) = (families[step], places[step], lengths[step]);
///     lines.push(format!("family {family} at place {place}: {length} letters left"));
/// }
/// lines.push(format!("{:?}", &out[..ended.length]));
/// assert_eq!(
///     lines,
///     [
///         "[1, 2, 1, 2, 1]",
///         "family 4 at place 0: 5 letters left",
///         "family 1 at place 3: 3 letters left",
///         "[2, 1, 2]",
///     ]
/// );
/// # Ok::<(), winnathey::Refusal>(())
/// ```
pub fn rewrite_to_end(
    kind: Kind,
    rank: u8,
    word: &[u8],
    families: &mut [u8],
    places: &mut [u16],
    lengths: &mut [u16],
    out: &mut [u8],
) -> Result<Ended, Refusal> {
    let mut written = [0];
    let answer = raw::rewrite_to_end(kind.0.into(), rank.into(), word, families, places, lengths, out, &mut written);
    answered(answer).map(|steps| Ended { steps, length: written[0] as usize })
}

/// Whether a simpler window can be reached by removing letters from the normal form of the present word. With a yes the
/// places of letters to keep, which count from 0 and rise, go to the front of `places`, and the answer is their number:
/// the length of the simpler window. `None` is a no, which writes nothing. Refusals 5 to 8, the present word's before the
/// simpler one's, and with a yes 14.
///
/// ```
/// use winnathey::lent::{Kind, MAX_NORMAL_FORM, fallback};
///
/// // The normal form of 1 2 1 is 2 1 2.
/// let mut places = [0; MAX_NORMAL_FORM];
/// let kept = fallback(Kind::A, 2, &[1, 2, 1], &[1, 2], &mut places)?;
/// assert_eq!(kept, Some(2));
/// assert_eq!(places[..2], [1, 2]);
///
/// assert_eq!(fallback(Kind::A, 2, &[1], &[2], &mut places)?, None);
/// // The empty word is a fallback for all presets.
/// assert_eq!(fallback(Kind::A, 2, &[1], &[], &mut [])?, Some(0));
/// # Ok::<(), winnathey::Refusal>(())
/// ```
pub fn fallback(
    kind: Kind,
    rank: u8,
    present: &[u8],
    simpler: &[u8],
    places: &mut [u16],
) -> Result<Option<usize>, Refusal> {
    match raw::fallback(kind.0.into(), rank.into(), present, simpler, places) {
        raw::NO_FALLBACK => Ok(None),
        answer => answered(answer).map(Some),
    }
}

/// The two words into which a word is split: the length of each.
#[derive(Clone, Copy, PartialEq, Eq, Hash, Debug)]
pub struct Split {
    /// Letters of the word over allowed steps.
    pub first: usize,
    /// Letters of what is left.
    pub second: usize,
}

/// Splits a word by a set of allowed steps, one bit a step, bit 0 for step 1: into a first word over allowed steps and a
/// second whose window has no shortest word that begins with an allowed step. Both are normal forms, the product of their
/// windows is the word's window, their lengths add up to its length, and there is just one such pair. Refusals 5, 6, 16, 7,
/// 8, 14.
///
/// ```
/// use winnathey::lent::{Kind, MAX_NORMAL_FORM, Split, split};
///
/// // The normal form of 1 2 1 is 2 1 2; of the steps only 1 is allowed.
/// let (mut first, mut second) = ([0; MAX_NORMAL_FORM], [0; MAX_NORMAL_FORM]);
/// let lengths = split(Kind::A, 2, 0b01, &[1, 2, 1], &mut first, &mut second)?;
/// assert_eq!(lengths, Split { first: 1, second: 2 });
/// assert_eq!(first[..1], [1]);
/// assert_eq!(second[..2], [2, 1]);
///
/// // There is no step 3.
/// let refusal = split(Kind::A, 2, 0b100, &[1, 2, 1], &mut first, &mut second).unwrap_err();
/// assert_eq!(refusal.number(), 16);
/// # Ok::<(), winnathey::Refusal>(())
/// ```
pub fn split(
    kind: Kind,
    rank: u8,
    allowed: u64,
    word: &[u8],
    first: &mut [u8],
    second: &mut [u8],
) -> Result<Split, Refusal> {
    let mut lengths = [0; 2];
    answered(raw::split(kind.0.into(), rank.into(), allowed, word, first, second, &mut lengths))?;
    let [first, second] = lengths.map(|length| length as usize);
    Ok(Split { first, second })
}

/// Writes the normal form of the word over allowed steps that leads from one window to another, and returns its
/// length: of all such words it is a shortest, and of those the first in the dictionary. Bit 0 of `allowed` stands for
/// step 1. If the windows agree the word is empty, whatever is allowed. Refusals 5 and 6, 16, 9 to 11 for `from`, then
/// for `to`, 19 if no word over the allowed steps leads there, 14.
///
/// ```
/// use winnathey::lent::{Kind, MAX_NORMAL_FORM, between};
///
/// let mut out = [0; MAX_NORMAL_FORM];
/// let length = between(Kind::A, 3, 0b111, &[1, 2, 3, 4], &[3, 2, 1, 4], &mut out)?;
/// assert_eq!(out[..length], [2, 1, 2]);
///
/// // With step 2 locked there is no way, and with steps 1 and 2 alone there is the same.
/// let refusal = between(Kind::A, 3, 0b101, &[1, 2, 3, 4], &[3, 2, 1, 4], &mut out).unwrap_err();
/// assert_eq!(refusal.number(), 19);
/// assert_eq!(between(Kind::A, 3, 0b011, &[1, 2, 3, 4], &[3, 2, 1, 4], &mut out), Ok(3));
///
/// assert_eq!(between(Kind::A, 3, 0, &[3, 2, 1, 4], &[3, 2, 1, 4], &mut []), Ok(0));
/// # Ok::<(), winnathey::Refusal>(())
/// ```
pub fn between(kind: Kind, rank: u8, allowed: u64, from: &[i8], to: &[i8], out: &mut [u8]) -> Result<usize, Refusal> {
    answered(raw::between(kind.0.into(), rank.into(), allowed, from, to, out))
}

/// The number of presets in a book. One of no bytes has none, as one of two zeros. Refusals 1 to 3.
///
/// ```
/// use winnathey::lent::{Edition, book_check};
///
/// assert_eq!(book_check(Edition::First, &[]), Ok(0));
/// assert_eq!(book_check(Edition::First, &[0, 0]), Ok(0));
/// assert_eq!(book_check(Edition::Second, &[0]).unwrap_err().number(), 1);
/// ```
pub fn book_check(edition: Edition, book: &[u8]) -> Result<usize, Refusal> {
    answered(match edition {
        Edition::First => raw::book_check(book),
        Edition::Second => raw::second_book_check(book),
    })
}

/// A preset of a book by its number, from 0. The letters are the book's own bytes. Refusals 1 to 8, and in the second
/// edition 17.
///
/// ```
/// use winnathey::lent::{Edition, Kind, Preset, preset};
///
/// let found = Preset { kind: Kind::B, rank: 2, word: &[1, 2, 1, 2] };
/// let book = [2, 2, 4, 0, 1, 2, 1, 2, 0, 0, 1, 0];
/// assert_eq!(preset(Edition::First, &book, 0), Ok(found));
/// assert_eq!(preset(Edition::First, &book, 1).unwrap_err().number(), 4);
///
/// let book = [2, 2, 2, 4, 0, 1, 2, 1, 2, 0, 0, 1, 0];
/// assert_eq!(preset(Edition::Second, &book, 0), Ok(found));
/// ```
pub fn preset(edition: Edition, book: &[u8], number: usize) -> Result<Preset<'_>, Refusal> {
    let mut fields = [0; 4];
    answered(match edition {
        Edition::First => raw::preset(book, number, &mut fields),
        Edition::Second => raw::second_preset(book, number, &mut fields),
    })?;
    Ok(lent(book, fields))
}

/// A preset by its kind, its rank, where its letters begin in the book and how many they are.
fn lent(book: &[u8], [kind, rank, start, letters]: [u64; 4]) -> Preset<'_> {
    let (start, letters) = (start as usize, letters as usize);
    Preset { kind: Kind(kind as u8), rank: rank as u8, word: &book[start..start + letters] }
}

/// Writes a book with one preset more, and returns its length. The second edition's lane count follows from kind
/// and rank. A preset of kind A and rank 1, which a book may hold, is not appended. Refusals 1 to 3, 5 to 8, 21, 13, 14.
///
/// ```
/// use winnathey::lent::{Edition, Kind, Preset, append, preset};
///
/// let mut book = [0; 13];
/// let added = Preset { kind: Kind::B, rank: 2, word: &[1, 2, 1, 2] };
/// let length = append(Edition::First, &[], added, &mut book)?;
/// assert_eq!(book[..length], [2, 2, 4, 0, 1, 2, 1, 2, 0, 0, 1, 0]);
/// assert_eq!(preset(Edition::First, &book[..length], 0)?, added);
///
/// let length = append(Edition::Second, &[0, 0], added, &mut book)?;
/// assert_eq!(book[..length], [2, 2, 2, 4, 0, 1, 2, 1, 2, 0, 0, 1, 0]);
///
/// let retired = Preset { kind: Kind::A, rank: 1, word: &[1] };
/// assert_eq!(append(Edition::First, &[], retired, &mut book).unwrap_err().number(), 21);
/// assert_eq!(preset(Edition::First, &[1, 1, 1, 0, 1, 0, 0, 1, 0], 0)?, retired);
/// # Ok::<(), winnathey::Refusal>(())
/// ```
pub fn append(edition: Edition, book: &[u8], added: Preset, out: &mut [u8]) -> Result<usize, Refusal> {
    let (kind, rank) = (added.kind.0.into(), added.rank.into());
    answered(match edition {
        Edition::First => raw::append(book, kind, rank, added.word, out),
        Edition::Second => raw::second_append(book, kind, rank, added.word, out),
    })
}

/// Writes a book in the other edition, with the same presets in the same order, and returns its length. `edition`
/// is the one of `book`. A book of no bytes gives no bytes. Refusals 1 to 3 of the book; then record by record, in order,
/// 5 to 8, and in the second edition 17 after 6 and 18 after 8; then 13, 14.
///
/// ```
/// use winnathey::lent::{Edition, MAX_BOOK, convert};
///
/// // B2 with the word 1 2 1 2, in either edition.
/// let first = [2, 2, 4, 0, 1, 2, 1, 2, 0, 0, 1, 0];
/// let second = [2, 2, 2, 4, 0, 1, 2, 1, 2, 0, 0, 1, 0];
/// let mut out = [0; MAX_BOOK];
/// let length = convert(Edition::First, &first, &mut out)?;
/// assert_eq!(out[..length], second);
/// let length = convert(Edition::Second, &second, &mut out)?;
/// assert_eq!(out[..length], first);
///
/// // B33 has more lanes than a record of the first edition may have.
/// let wide = [2, 33, 33, 0, 0, 0, 0, 1, 0];
/// assert_eq!(convert(Edition::Second, &wide, &mut out).unwrap_err().number(), 18);
/// # Ok::<(), winnathey::Refusal>(())
/// ```
pub fn convert(edition: Edition, book: &[u8], out: &mut [u8]) -> Result<usize, Refusal> {
    answered(match edition {
        Edition::First => raw::to_second(book, out),
        Edition::Second => raw::to_first(book, out),
    })
}

#[cfg(all(test, feature = "alloc"))]
mod tests {
    use super::*;

    const BOOK: [u8; 24] = [2, 2, 4, 0, 1, 2, 1, 2, 3, 5, 6, 0, 5, 2, 3, 5, 1, 2, 0, 0, 8, 0, 2, 0];

    fn number<T: fmt::Debug>(answer: Result<T, Refusal>) -> u8 {
        answer.unwrap_err().number()
    }

    #[test]
    fn each_refusal_has_its_number() {
        let mut lanes = [0; MAX_LANES];
        let mut letters = [0; MAX_BOOK];
        let empty = Preset { kind: Kind::B, rank: 2, word: &[] };
        assert_eq!(number(book_check(Edition::First, &[0])), 1);
        assert_eq!(number(book_check(Edition::First, &[1, 0])), 2);
        assert_eq!(number(book_check(Edition::First, &[0, 0, 0])), 3);
        assert_eq!(number(preset(Edition::First, &BOOK, 2)), 4);
        assert_eq!(number(window_of_word(Kind(4), 2, &[], &mut lanes)), 5);
        assert_eq!(number(window_of_word(Kind::A, 64, &[], &mut lanes)), 6);
        assert_eq!(
            number(append(Edition::First, &BOOK, Preset { kind: Kind::A, rank: 32, word: &[] }, &mut letters)),
            6
        );
        assert_eq!(number(length_of_word(Kind::A, 1, &[1; 4097])), 7);
        assert_eq!(number(same(empty, Preset { word: &[3], ..empty })), 8);
        assert_eq!(number(length_of_window(Kind::A, 2, &[1, 2])), 9);
        assert_eq!(number(inverse_of_window(Kind::B, 2, &[-128, 2], &mut lanes)), 10);
        assert_eq!(number(product_of_windows(Kind::D, 4, &[1, 2, 3, 4], &[-1, 2, 3, 4], &mut lanes)), 11);
        assert_eq!(number(rewrite(Kind::A, 1, &[], 0, &mut letters)), 12);
        let mut book = BOOK.to_vec();
        for _ in 0..15 {
            let length = append(Edition::First, &book, Preset { word: &[1; 4096], ..empty }, &mut letters).unwrap();
            book = letters[..length].to_vec();
        }
        assert_eq!(number(append(Edition::First, &book, Preset { word: &[1; 4096], ..empty }, &mut letters)), 13);
        assert_eq!(number(append(Edition::First, &book, empty, &mut letters[..book.len() + 5])), 14);
        assert_eq!(number(split(Kind::A, 63, 1 << 63, &[], &mut [], &mut [])), 16);
        assert_eq!(number(preset(Edition::Second, &[1, 2, 2, 0, 0, 0, 0, 1, 0], 0)), 17);
        assert_eq!(number(convert(Edition::Second, &[1, 32, 33, 0, 0, 0, 0, 1, 0], &mut letters)), 18);
        assert_eq!(number(delay_table(Kind::D, 17, &mut [0; MAX_TABLE_COUNTS], &mut lanes, &mut letters)), 20);
        assert_eq!(
            number(append(Edition::Second, &[], Preset { kind: Kind::A, rank: 1, word: &[] }, &mut letters)),
            21
        );
    }

    #[test]
    fn a_book_of_no_bytes_has_no_presets() {
        for edition in [Edition::First, Edition::Second] {
            assert_eq!(book_check(edition, &[]), Ok(0));
            assert_eq!(number(preset(edition, &[], 0)), 4);
            assert_eq!(presets(edition, &[]).map(Iterator::count), Ok(0));
            assert_eq!(convert(edition, &[], &mut []), Ok(0));
        }
    }

    #[test]
    fn the_better_word_is_one_of_the_lent_ones() {
        let (first, second) = ([1u8, 2, 1], [1u8, 2, 1]);
        let is = |answer: Result<Option<&[u8]>, Refusal>, word: &[u8]| core::ptr::eq(answer.unwrap().unwrap(), word);
        assert!(is(better(Kind::A, 2, &first, &second), &first));
        let (long, short) = ([1u8, 1, 2], [2u8]);
        assert!(is(better(Kind::A, 2, &long, &short), &short));
        assert!(is(better(Kind::A, 2, &short, &long), &short));
        assert_eq!(better(Kind::A, 2, &long, &[1]), Ok(None));
        assert_eq!(better(Kind::A, 2, &[], &[1]), Ok(None));
        assert_eq!(number(better(Kind(4), 2, &long, &short)), 5);
        assert_eq!(number(better(Kind::A, 0, &long, &short)), 6);
        assert_eq!(number(better(Kind::A, 2, &[3], &[1; 4097])), 8);
        assert_eq!(number(better(Kind::A, 2, &[1], &[1; 4097])), 7);
    }

    #[test]
    fn letters_are_the_books_own_bytes() {
        let found = preset(Edition::First, &BOOK, 1).unwrap();
        assert_eq!((found.kind, found.rank), (Kind::D, 5));
        assert!(core::ptr::eq(found.word, &BOOK[12..18]));
    }
}
